#!/bin/sh
# How many instructions a second the built program does, beside an interpreter in C of the same code, in one run.
# The programs of rate/ are run through `lilith once`: Sum, two nested FORs with one addition in the inner one; Range, the same where
# the sum's variable is of a subrange and is tested at each store; Counting, which sorts numbers by counting them; Records, which
# sorts records by exchanging neighbours; Nodes, which walks along a list; Fibonacci and Ackermann, which are functions that call
# themselves; and Quicksort, which sorts numbers by a procedure that does so. Times are those of the processor, so that other work
# beside counts little: the least of as many runs as TURNS says, 25 where it says nothing. A program, one without statements and the
# one in C (rate.c, with their bytes in rate.h), as gcc makes it at -O2 and at -O3, are run in turn, so that what slows the machine
# meets all. The difference of the first two is what a program took, without the start. At the end stand the ratios of all programs.
# Before a program is timed it is compared with the one in C: its code has as many bytes, it does as many instructions, and what it
# made is the same, word for word. Where one of these isn't so, that is said, and all ends with status 1.
# Where valgrind is installed, it also prints how many instructions of the host both programs do for one of M-code: the difference
# of two runs of different lengths, so that neither the start nor the end of a program counts.
# Usage: bench/rate.sh, in a clone whose program is built (`cd examples && ../lilith once Hello.MOD` builds it), or bench/rate.sh
# PROGRAM with one that is built elsewhere. It wants gcc and awk, prints numbers and judges no time.
set -u
turns=${TURNS:-25}
budget=10000000

top=$(CDPATH= cd "$(dirname "$0")/.." && pwd -P) || exit 1
program=$(realpath "${1:-$top/crates/lil_cli/out/lil_cli}")
if [ ! -x "$program" ]; then
    echo "rate: there is no built program; run 'cd examples && ../lilith once Hello.MOD' first" >&2
    exit 1
fi
folder=$(mktemp -d) || exit 1
trap 'rm -rf "$folder"' EXIT
gcc -O2 -o "$folder/rate" "$top/bench/rate.c" || exit 1
gcc -O3 -o "$folder/rate3" "$top/bench/rate.c" || exit 1
cd "$folder" || exit 1
echo "MODULE Empty; END Empty." >Empty.MOD

# Writes the program $1 of rate/ as the module $2: changed by sed, and with the statements that come in behind its own
text() {
    sed -e "1s/$1/$2/" -e "$3" -e '$d' "$top/bench/rate/$1.MOD" >"$2.MOD"
    cat >>"$2.MOD"
    echo "END $2." >>"$2.MOD"
}
padded="s/^CONST/VAR more: CARDINAL; flag: BOOLEAN; CONST/"
writing="s/^CONST/FROM InOut IMPORT WriteCard, WriteLn; CONST/"

# Runs a program, which ends with this status and this report
ends() {
    "$program" once "$1.MOD" </dev/null >screen 2>report
    status=$?
    if [ "$status" -ne "$2" ] || [ "$(cat report)" != "$3" ]; then
        echo "rate: $name: $1 ended with status $status: $(cat report)" >&2
        exit 1
    fi
}

# The lesser of two times, where 0 stands for none
least() {
    if [ "$1" -ne 0 ] && [ "$1" -le "$2" ]; then echo "$1"; else echo "$2"; fi
}

# The least time of a program so far: its name, and the least one before it or 0
timed() {
    took=$(./rate took "$program" once "$1.MOD") || exit 1
    least "$2" "$took"
}

# The same of the one in C: which, the name, and the least time before
timed_in_c() {
    took=$("$1" "$2") || exit 1
    took=${took#* }
    least "$3" "${took%% *}"
}

# The instructions of the host that a command took
host() {
    valgrind --tool=callgrind --callgrind-out-file=/dev/null "$@" 2>&1 >screen </dev/null | awk '$2 == "Collected" { print $4 }'
}

# Statements of so many bytes, six each
bytes() {
    awk -v n="$1" 'BEGIN { for (; n > 0; n -= 6) print "; more := 0" }'
}

# Statements of so many instructions. A FOR is its two bounds, its step and FRI, and each turn LLW and SGW, here a hundred times LIW
# and SGW, and FRN. What is left are statements of two instructions, and one of three where their number is odd.
padding() {
    awk -v n="$1" 'BEGIN {
        turns = int((n - 7) / 203)
        left = n - 4 - 203 * turns
        printf "; FOR more := 1 TO %d DO", turns
        for (k = 0; k < 100; k++) printf " more := 0;"
        print " END"
        if (left % 2 == 1) { print "; flag := NOT flag"; left -= 3 }
        for (; left > 0; left -= 2) print "; more := 0"
    }'
}

# Statements that show what a program made, a word each line
shown() {
    case $1 in
        Counting) echo "; FOR i := 0 TO 9999 DO WriteCard(numbers[i], 1); WriteLn END" ;;
        Records)
            echo "; FOR i := 0 TO 299 DO WITH items[i] DO WriteCard(number, 1); WriteLn; WriteCard(key, 1); WriteLn;"
            echo "WriteCard(ORD(letter), 1); WriteLn; WriteCard(ORD(odd), 1); WriteLn END END"
            ;;
        Fibonacci | Ackermann) echo "; WriteCard(value, 1); WriteLn" ;;
        Quicksort) echo "; FOR i := 1 TO 4000 DO WriteCard(numbers[i], 1); WriteLn END" ;;
        *) echo "; WriteCard(sum, 1); WriteLn" ;;
    esac
}

# Compares a program with the one in C, by its bytes and its instructions there. Code that is too long is answered with its bytes: so
# statements come behind that make it too long. A program may do as many instructions as the budget has: so it ends where statements
# behind it fill that, and it is stopped where they have one instruction more.
compared() {
    bytes 33000 | text "$1" Bytes "$padded"
    ends Bytes 3 "Bytes.MOD:1:8: 64 CodeTooLong $(($2 + 33000))"
    padding $((budget - $3)) | text "$1" Full "$padded"
    ends Full 0 ""
    padding $((budget - $3 + 1)) | text "$1" Spent "$padded"
    ends Spent 7 "steps spent"
    shown "$1" | text "$1" Shown "$writing"
    ends Shown 0 ""
    ./rate "$1" words >words || exit 1
    if ! cmp -s words screen; then
        echo "rate: $name made something else in C" >&2
        exit 1
    fi
}

# The instructions of the host for one of M-code: two turns of the outer loop more
hosted() {
    text "$1" Short "s/^CONST turns = .*/CONST turns = 1;/" </dev/null
    text "$1" Long "s/^CONST turns = .*/CONST turns = 3;/" </dev/null
    long=$(./rate "$1" 3)
    short=$(./rate "$1" 1)
    lilith=$(($(host "$program" once Long.MOD) - $(host "$program" once Short.MOD)))
    c=$(($(host ./rate "$1" 3) - $(host ./rate "$1" 1)))
    awk -v n=$((${long%% *} - ${short%% *})) -v lilith="$lilith" -v c="$c" 'BEGIN {
        printf "host instructions for one: lilith %.1f, C %.1f\n", lilith / n, c / n
    }'
}

# One program. Around its statements stand ENT and RTN; the empty program has these two alone, so they aren't counted.
measured() {
    told=$(./rate "$1") || exit 1
    instructions=$((${told%% *} - 2))
    compared "$1" "${told##* }" $((instructions + 2))
    cp "$top/bench/rate/$1.MOD" .
    rate=0
    empty=0
    c=0
    c3=0
    turn=0
    while [ "$turn" -lt "$turns" ]; do
        rate=$(timed "$1" "$rate") || exit 1
        empty=$(timed Empty "$empty") || exit 1
        c=$(timed_in_c ./rate "$1" "$c") || exit 1
        c3=$(timed_in_c ./rate3 "$1" "$c3") || exit 1
        turn=$((turn + 1))
    done
    awk -v name="$1" -v n="$instructions" -v rate="$rate" -v empty="$empty" -v c="$c" -v c3="$c3" '
        function line(what, took) {
            printf "%-7s %10.3f ms %12.0f a second\n", what, took / 1e6, n / took * 1e9
        }
        BEGIN {
            took = rate - empty
            printf "%s: instructions %d, start %.3f ms\n", name, n, empty / 1e6
            line("lilith", took)
            line("C -O2", c)
            line("C -O3", c3)
            printf "%-9s %8.2f %8.2f\n", name, took / c, took / c3 >>"ratios"
        }'
    if command -v valgrind >/dev/null; then hosted "$1"; fi
}

for name in Sum Range Counting Records Nodes Fibonacci Ackermann Quicksort; do
    measured "$name"
done
printf '%-9s %8s %8s\n' ratio "C -O2" "C -O3"
cat ratios
