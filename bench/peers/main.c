/*
 * The loom's epochs on this library and on others that a user might pick instead. bench/peers/run builds and calls it.
 *
 *     peers figures FOLDER    the tables of times, words and room
 *     peers deaths FOLDER     processes that are killed at work, and what is found after each
 */
#include <stdlib.h>
#include <string.h>

#include "modes.h"
#include "peer.h"

int main(int count, char **words)
{
    if (count == 3 && strcmp(words[1], "figures") == 0)
        print_figures(words[2]);
    else if (count == 3 && strcmp(words[1], "deaths") == 0)
        print_deaths(words[2]);
    else
        fail("it is called by bench/peers/run");
    return EXIT_SUCCESS;
}
