# An LLVM module as text, made ready for a target: the one store by which board::put puts a word on a board is marked volatile, so that a
# compiler keeps the order of these stores and makes each of them whole; and what binds the module to the toolchain's own processor
# is taken out (data layout, the processor's name) or replaced (the triple, which -v triple=.. gives). The exports' pointers are marked as
# not null, which is their caller's duty (include/picl.h): the toolchain puts another address in the place of one that is null, which
# costs each call some twenty instructions.
#
# It fails, and says why, unless the module has one board::put, whose parameters are the part of the board and its length, place, word and
# meter, and in which exactly one store goes to memory that is not the function's own; it must be the store of that word.

function refuse(why) {
    print "firmware/build: " why > "/dev/stderr"
    refused = 1
    exit 1
}

# The names of the parameters of board::put, of which the fourth is the word.
function read_parameters(line,    list, count, at) {
    sub(/^[^(]*\(/, "", line)
    sub(/\).*/, "", line)
    count = split(line, list, ", ")
    if (count != 5)
        refuse("board::put has " count " parameters in the module, and not part, length, place, word and meter")
    for (at in list) {
        types[at] = list[at]
        sub(/ .*/, "", types[at])
        sub(/.* /, "", list[at])
        names[at] = list[at]
    }
    if (types[1] != "ptr" || types[3] != "i64" || types[4] != "i64")
        refuse("part, place and word of board::put are no address and 64-bit words in the module")
}

# What a store writes, and where: "store TYPE VALUE, ptr PLACE, .."
function read_store(line,    words) {
    gsub(/,/, "", line)
    split(line, words, " ")
    stored_type = words[2]
    stored = words[3]
    place = words[5]
}

/^target datalayout = / { next }
/^target triple = / { $0 = "target triple = \"" triple "\"" }
/^attributes / { gsub(/ "target-(cpu|features)"="[^"]*"/, "") }

/^define .*@picl_/ { exported += gsub(/ptr noundef %/, "ptr noundef nonnull %") }

/^define .*@"board::put"\(/ {
    found++
    inside = 1
    read_parameters($0)
}

inside && / = alloca / {
    own[$1]
    if ($4 ~ /^\[/)
        room[$1] = substr($4, 2) + 0
}

# A place so many bytes behind the first of the function's own memory, and in it.
inside && / = getelementptr / {
    behind = $NF
    base = $(NF - 2)
    sub(/,$/, "", base)
    if (base in room && behind ~ /^[0-9]+$/ && behind + 0 < room[base])
        own[$1]
}

# What fills or moves bytes of the function's own memory.
inside && /^[^"]*call / && !/ @llvm\.mem(move|cpy|set)\./ { refuse("board::put calls a function in the module: " $0) }

inside && / @llvm\.mem(move|cpy|set)\./ {
    place = $0
    sub(/.*@llvm\.mem[^(]*\(ptr /, "", place)
    sub(/,.*/, "", place)
    if (!(place in own))
        refuse("board::put moves bytes to memory that is not its own: " $0)
}

inside && /^ *store / {
    read_store($0)
    if (!(place in own)) {
        if (stored_type != "i64" || stored != names[4])
            refuse("board::put stores something else than the word: " $0)
        marked++
        sub(/store /, "store volatile ")
    }
}

inside && /^}/ { inside = 0 }

{ print }

END {
    if (refused)
        exit 1
    if (found != 1)
        refuse("the module has " found + 0 " functions board::put, and not one")
    if (marked != 1)
        refuse("board::put has " marked + 0 " stores of the word in the module, and not one")
    if (!exported)
        refuse("no export of the module has a pointer as a parameter")
}
