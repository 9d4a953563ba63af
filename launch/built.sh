#!/bin/sh
# shellcheck disable=SC2154
# What launchers and the gate both know of the built programs. They read this file, with the top folder in $top.

# the programs that launchers run
programs='lil_cli lil_explain lil_look'
# beside the first: sums of them, and of what they were built from
stamp=$top/crates/lil_cli/out/lilith-sources

# the file of the program $1, below the top folder
file_of() {
    echo "crates/$1/out/$1"
}

# the crates of crates.txt that the programs stand on, and they, each after those that it uses
order() {
    awk -v programs="$programs" '
        function visit(name,    i, count, below) {
            if (!(name in uses) || name in seen) return
            seen[name] = 1
            count = split(uses[name], below, " ")
            for (i = 1; i <= count; i++) visit(below[i])
            print name
        }
        { sub(/#.*/, "") }
        /:/ { name = $1; sub(/:.*/, "", name); sub(/^[^:]*:/, ""); uses[name] = $0 }
        END {
            count = split(programs, tops, " ")
            for (i = 1; i <= count; i++) visit(tops[i])
        }
    ' "$top/crates.txt"
}

# a sum of all that is proved of these crates
sources() {
    (cd "$top" && {
        cksum crates.txt HANDLES
        # shellcheck disable=SC2046
        find $(order | sed 's,^,crates/,') -type d \( -name out -o -name must-fail \) -prune -o \
            -type f \( -name '*.rt' -o -name '*.antt' \) -exec cksum {} + | LC_ALL=C sort
    }) | cksum
}

# the stamp of the programs that are there, if they were built from sources of the sum $1
stamp_of() {
    echo "$1"
    for name in $programs; do
        (cd "$top" && cksum "$(file_of "$name")")
    done
}

is_built() {
    for name in $programs; do
        [ -x "$top/$(file_of "$name")" ] || return 1
    done
    [ -f "$stamp" ] && [ "$(cat "$stamp")" = "$(stamp_of "$(sources)")" ]
}
