#!/bin/sh
# shellcheck disable=SC2154
# How launchers build the programs: rt ci proves a copy of their crates, while rt try runs the text with no
# proof. They read this file, after built.sh.

# what rt said, where it built nothing
log=$(dirname "$stamp")/lilith-build.log

# writes lines of at most 79 characters to standard error
say() {
    printf 'lilith: %s\n' "$@" >&2
}

need_rt() {
    command -v rt >/dev/null 2>&1 && return
    say "the program must be built first, and rt, the command for that, isn't on" \
        'the PATH. It comes with the kit of Rattle, the language of these sources' \
        '(README.md says which). Unpack the kit, and put its folder bin on the PATH:' \
        "    PATH=/opt/rattle/bin:\$PATH"
    exit 70
}

# whether rt can keep what it proves: in a folder beside the kit, while 5 GB are free there
keeps() {
    beside=$(dirname "$(dirname "$(rt doc)")")
    { [ -w "$beside/rattle-kept" ] || { [ ! -e "$beside/rattle-kept" ] && [ -w "$beside" ]; }; } &&
        [ "$(df -Pk "$beside" | awk 'NR == 2 { print $4 }')" -ge 5120000 ]
}

tell_beginning() {
    say "a first start proves all $total crates and builds the program, and a later" \
        'one what changed. Ctrl-C stops it.'
    if keeps; then
        kept='proved, and that is kept.'
        again='The same command goes on from there.'
    else
        kept='proved.'
        again="Nothing is kept, as rt can't write beside its kit or has no 5 GB there."
        say "$again"
    fi
}

# copies what is proved and run. With no wrong bodies and no crates of tests, rt ci does no more than that
copy_crates() {
    # (it wants the top of a repository)
    mkdir -p "$copy/.git" && cp "$top/HANDLES" "$copy" || return 1
    for name in $order; do
        look
        show_line
        mkdir -p "$copy/crates/$name"
        set --
        for part in "$top/crates/$name"/*; do
            case $part in
                */out | */must-fail) ;;
                *) set -- "$@" "$part" ;;
            esac
        done
        cp -R "$@" "$copy/crates/$name" || return 1
    done
    # shellcheck disable=SC2086
    grep -E "^($(echo $order | tr ' ' '|'))[ :]" "$top/crates.txt" >"$copy/crates.txt"
}

# writes of each crate what left.awk reads. A proof takes 15 seconds, and one for 5 lines of code
write_weights() {
    (cd "$copy/crates" && find . -name '*.rt' -exec wc -l {} +) | awk -v names="$order" '
        NR == FNR { split($2, part, "/"); lines[part[2]] += $1; next }
        { name = $1; sub(/:.*/, "", name); sub(/^[^:]*:/, ""); uses[name] = $0 }
        END {
            count = split(names, list)
            for (i = 1; i <= count; i++) print list[i], int(15 + lines[list[i]] / 5), uses[list[i]]
        }
    ' - "$copy/crates.txt" >"$room/weights.new" && mv "$room/weights.new" "$room/weights"
}

# starts the command $3.. in the folder $2. Beside $room/$1 come its number, what it writes, and its status at last
beside() {
    at=$room/$1 folder=$2
    shift 2
    {
        # shellcheck disable=SC2016
        (cd "$folder" && exec sh -c 'echo $$ >"$0.pid"; exec "$@"' "$at" "$@") >"$at.out" 2>"$at.err"
        echo $? >"$at.ended"
    } </dev/null 2>/dev/null &
}

has_ended() {
    [ -s "$room/$1.ended" ]
}

end() {
    if [ -s "$room/$1.pid" ] && ! has_ended "$1"; then
        kill "$(cat "$room/$1.pid")" 2>/dev/null
    fi
}

# the time since $begun in minutes and seconds
passed() {
    seconds=$(($(date +%s) - begun))
    printf '%d:%02d' $((seconds / 60)) $((seconds % 60))
}

# sets $line. When it ends, $due, is estimated whenever a crate is done, by the pace until then
look() {
    now=$(date +%s)
    line="lilith: copying the sources, $(passed) so far"
    [ -f "$room/weights" ] || return
    # shellcheck disable=SC2046
    set -- $(awk -v lanes="$lanes" -f "$top/launch/left.awk" "$room/weights" "$room/proof.out")
    if [ -z "$due" ] || [ "$3" != "$count" ]; then
        count=$3
        due=$((now + $1 * (300 + now - begun) / (300 + $2 - $1)))
    fi
    left='soon done'
    [ $((due - now)) -lt 60 ] || left="about $(((due - now) / 60 + 1)) minutes left"
    line="lilith: $count of $total crates are proved, $(passed) so far, $left"
}

# shows the line anew each second on a terminal, and else every seven seconds
show_line() {
    if [ -t 2 ]; then
        printf '\r%-79.79s' "$line" >&2
    elif [ "$now" -ge "$next" ]; then
        printf '%s\n' "$line" >&2
        next=$((now + 7))
    fi
}

end_line() {
    [ ! -t 2 ] || printf '\r%79s\r' '' >&2
}

# shows the screen of the run before the proof, and the line of its answer, once that has ended
show_trial() {
    if [ -z "$tried" ] && has_ended trial; then
        tried=yes
        grep -q '^run=ended ' "$room/trial.err" || return
        end_line
        printf 'before the proof:\n' >&2
        awk 1 "$room/trial.out" >&2
        grep -vE '^(rt|interpreter|checked|races|run)[:=]' "$room/trial.err" >&2
    fi
}

# ends what runs beside, and takes the copy away
clean() {
    trap '' INT TERM HUP
    end proof
    end trial
    wait
    end_line
    rm -rf "$room" 2>/dev/null || { sleep 1; rm -rf "$room"; }
}

stop() {
    look
    clean
    say "stopped after $(passed). $count of $total crates are $kept" ${again:+"$again"}
    exit "$1"
}

complain() {
    mkdir -p "$(dirname "$log")" && cat "$room/proof.out" "$room/proof.err" >"$log" 2>/dev/null
    clean
    grep -E 'error|layout|NOT PROVED' "$log" | head -n 10 >&2
    tail -n 10 "$log" >&2
    say "nothing was built in $(passed); the whole log is" "$log"
    exit 70
}

take_programs() {
    for name in $programs; do
        file=$(file_of "$name")
        mkdir -p "$top/$(dirname "$file")" && cp "$copy/$file" "$top/$file.new" && mv "$top/$file.new" "$top/$file" || return 1
    done
    stamp_of "$from" >"$stamp"
}

# builds the programs. Beside that the program $1 is run with the words $3.. on the text $2, with no proof
build() {
    need_rt
    begun=$(date +%s) count=0 due='' next=0 tried='' kept=proved. again='' here=$(pwd)
    order=$(order)
    total=$(echo "$order" | wc -l | tr -d ' ')
    lanes=$(getconf _NPROCESSORS_ONLN)
    room=$(mktemp -d "${TMPDIR:-/tmp}/lilith-XXXXXX") || exit 70
    copy=$room/lilith
    : >"$room/proof.out"
    trap 'stop 130' INT
    trap 'stop 143' TERM HUP
    tell_beginning
    crate=$top/crates/$1 data=$2=$here/$2
    shift 2
    beside trial "$crate" rt try --data "$data" -- "$@"
    from=$(sources)
    { copy_crates && write_weights; } || complain
    # (the run before the proof goes first)
    beside proof "$copy" nice -n 5 rt ci
    until has_ended proof; do
        show_trial
        look
        show_line
        sleep 1
    done
    { [ "$(cat "$room/proof.ended")" = 0 ] && take_programs; } || complain
    clean
    say "built in $(passed)"
    trap - INT TERM HUP
}
