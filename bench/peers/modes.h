/* What the program can be asked for: main.c says it in a line for each. */
#ifndef MODES_H
#define MODES_H

void print_figures(const char *folder);
void print_deaths(const char *folder);

#endif
