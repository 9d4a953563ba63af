#!/bin/sh
# Measures the built program on long texts that run, each with one row that is nearly as long as code, data and constants allow: the
# wall time from its start to its end, the least of five runs, and the most memory that it held. It prints numbers and judges none.
set -u

top=$(CDPATH= cd "$(dirname "$0")/.." && pwd -P) || exit 1
program=$top/crates/lil_cli/out/lil_cli
if [ ! -x "$program" ]; then
    echo "bench: there is no built program; run 'cd examples && ../lilith once Hello.MOD' first" >&2
    exit 1
fi
folder=$(mktemp -d) || exit 1
trap 'rm -rf "$folder"' EXIT
cd "$folder" || exit 1

# Writes a text NAME.MOD: name, kind of piece, how many, mark between pieces, what stands before them and what behind. The pieces
# are all the same, or names of variables, of which there are 2,574.
text() {
    awk -v name="$1" -v kind="$2" -v count="$3" -v mark="$4" -v head="$5" -v tail="$6" '
        # the n-th name, from 0: one byte, then two
        function variable(n,    letters, digits, m) {
            letters = "abcdefghijklmnopqrstuvwxyz"
            digits = letters "0123456789"
            if (n < 26) return substr(letters, n + 1, 1)
            m = n - 26
            if (m < 936) return substr(letters, int(m / 36) + 1, 1) substr(digits, m % 36 + 1, 1)
            m -= 936
            if (m < 936) return toupper(substr(letters, int(m / 36) + 1, 1)) substr(digits, m % 36 + 1, 1)
            m -= 936
            return substr(letters, int(m / 26) + 1, 1) toupper(substr(letters, m % 26 + 1, 1))
        }
        function piece(n) {
            if (kind == "variable") return variable(n)
            return kind
        }
        BEGIN {
            printf "MODULE %s; %s%s", name, head, piece(0)
            for (n = 1; n < count; n++) printf "%s%s", mark, piece(n)
            printf "%s END %s.", tail, name
        }' >"$1.MOD"
}

text Numbers 1 65535 + "VAR c: CARDINAL; BEGIN c := " ""
text Sum c 8180 - "VAR c: CARDINAL; BEGIN c := c + " ""
text Writes "Write(CHR(42))" 6552 "; " "FROM Terminal IMPORT Write; BEGIN " ""
text Assigns "c := c + 1" 3276 "; " "VAR c: CARDINAL; BEGIN " ""
text Variables variable 2574 , "VAR " ": CARDINAL; BEGIN a := z;  b := a"

echo "text       bytes  milliseconds  kilobytes  status"
for name in Numbers Sum Writes Assigns Variables; do
    best=
    for turn in 1 2 3 4 5; do
        before=$(date +%s%N)
        "$program" once "$name.MOD" </dev/null >screen 2>report
        status=$?
        after=$(date +%s%N)
        micros=$(((after - before) / 1000))
        if [ -z "$best" ] || [ "$micros" -lt "$best" ]; then
            best=$micros
        fi
    done
    memory="-"
    if [ -x /usr/bin/time ]; then
        memory=$(/usr/bin/time -q -f %M "$program" once "$name.MOD" 2>&1 </dev/null >screen | tail -n 1)
    fi
    printf '%-9s %6d  %8d.%03d  %9s  %6d\n' "$name" "$(wc -c <"$name.MOD")" $((best / 1000)) $((best % 1000)) "$memory" "$status"
done
