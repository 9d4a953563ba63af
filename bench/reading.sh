#!/bin/sh
# Measures how long the built program reads and checks long texts, and how much memory it holds: texts of declarations, procedures
# and statements mixed, and the longest rows of one kind, each of 65,536, 131,072 and 262,144 bytes. The least wall time of three
# runs. It prints numbers, and the answer's line where there is one, and judges none.
set -u

top=$(CDPATH= cd "$(dirname "$0")/.." && pwd -P) || exit 1
program=$top/crates/lil_cli/out/lil_cli
if [ ! -x "$program" ]; then
    echo "bench: there is no built program; run 'cd examples && ../lilith once Hello.MOD' first" >&2
    exit 1
fi
folder=$(mktemp -d) || exit 1
trap 'rm -rf "$folder"' EXIT
cd "$folder" || exit 1

# Writes a text NAME.MOD of SIZE bytes: what stands before the pieces, the pieces as many as there is room for, what stands behind.
text() {
    awk -v name="$1" -v size="$2" -v head="$3" -v piece="$4" -v tail="$5" '
        BEGIN {
            printf "MODULE %s; %s", name, head
            left = size - length("MODULE " name "; " head) - length(tail " END " name ".")
            while (left >= length(piece)) {
                printf "%s", piece
                left -= length(piece)
            }
            for (; left > 0; left--) printf " "
            printf "%s END %s.", tail, name
        }' >"$1.MOD"
}

# declarations, a procedure and its statements
mixed='CONST c = 2 * (3 + 4); TYPE t = RECORD a, b: ARRAY [0 .. 9] OF CARDINAL; p: POINTER TO t END; VAR v: t; PROCEDURE P(VAR x: t; n: CARDINAL): BOOLEAN; VAR i: CARDINAL; BEGIN FOR i := 0 TO n - 1 DO x.a[i] := x.b[n - i] * 2 + c; IF (x.p # NIL) AND (i IN {1, 3 .. 5}) THEN x := x.p^ ELSIF i > 7 THEN RETURN FALSE END END; CASE n OF 1, 2: Q(x) | 3 .. 9: REPEAT DEC(n) UNTIL n = 0 ELSE WHILE n > 0 DO LOOP EXIT END END END; RETURN TRUE END P; '

echo "text         bytes  milliseconds  kilobytes  answer"
for size in 65536 131072 262144; do
    text Mixed $size "" "$mixed" ""
    text Operands $size "BEGIN c := 1" "+1" ""
    text Selectors $size "BEGIN c := a" ".b" ""
    text Statements $size "BEGIN " "c:=d;" ""
    text Fields $size "TYPE t = RECORD " "a:b;" "END;"
    text Names $size "VAR a" ",b" ": CARDINAL;"
    text Labels $size "BEGIN CASE c OF 1" ",1" ": END"
    text Procedures $size "" "PROCEDURE p;END p;" ""
    for name in Mixed Operands Selectors Statements Fields Names Labels Procedures; do
        best=
        for turn in 1 2 3; do
            before=$(date +%s%N)
            "$program" once "$name.MOD" </dev/null >screen 2>report
            after=$(date +%s%N)
            micros=$(((after - before) / 1000))
            if [ -z "$best" ] || [ "$micros" -lt "$best" ]; then
                best=$micros
            fi
        done
        memory="-"
        if [ -x /usr/bin/time ]; then
            memory=$(/usr/bin/time -q -f %M "$program" once "$name.MOD" 2>&1 </dev/null >screen | tail -n 1)
        fi
        printf '%-10s %7d  %8d.%03d  %9s  %s\n' "$name" "$(wc -c <"$name.MOD")" $((best / 1000)) $((best % 1000)) "$memory" "$(head -n 1 report)"
    done
done
