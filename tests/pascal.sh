#!/usr/bin/env bash
# Runs the programs of tests/pascal, which mean the same in ISO Pascal, by `web2c prun`, and compares what their files
# hold behind the run with what they held behind one of Free Pascal (Debian's fpc), which is kept; where fpc is
# installed, it runs them once more, and is compared too. Then it runs programs that are made to be deep. NAME.FILE is
# what FILE of the program NAME.p holds before a run, and nothing where it is not there. NAME.FILE.output, or
# NAME.output of `output`, is what FILE holds behind it, where it is written. A byte 26, which Free Pascal puts behind a
# text, is passed. The program is the one that the first word names; without a word it is run by the script `web2c`.
set -u
top=$(cd "$(dirname "${BASH_SOURCE[0]}")/.." && pwd)
web2c=$(readlink -f "${1:-$top/web2c}")
[ -x "$web2c" ] || { echo "there is no program $web2c"; exit 3; }
folder=$(mktemp -d) && cd "$folder" || exit 3
trap 'rm -rf "$folder"' EXIT
"$web2c" >/dev/null
kept=$top/tests/pascal
passed=0 failed=0

pass() { passed=$((passed + 1)); }
fail() { failed=$((failed + 1)); echo "failed: $*"; } # WORDS...

# The folder of a run, with the files of a program as they are before it.
lay() { # FOLDER NAME FILES...
    local to=$1 name=$2 file
    shift 2
    mkdir "$to"
    cp "$kept/$name.p" "$to"
    for file in "$@"; do
        [ ! -e "$kept/$name.$file" ] || [ "$file" = output ] || cp "$kept/$name.$file" "$to/$file"
    done
}

# Where it is kept what a file of a program holds behind a run; a file that is not written stays as it was.
behind() { # NAME FILE
    local place
    for place in "$1.$2.output" "$1.$2"; do
        [ "$2" != output ] || place=$1.output
        [ ! -e "$kept/$place" ] || { echo "$kept/$place"; return; }
    done
}

# Whether the files of a program hold what is kept; else the first one that does not is told.
holds() { # FOLDER NAME FILES...
    local from=$1 name=$2 file
    shift 2
    for file in "$@"; do
        cmp "$from/$file" "$(behind "$name" "$file")" || return
    done
}

# A program by `prun`. It halts with 0, save the one that leaves a routine by a goto to its last label.
run_ours() { # NAME FILES...
    local name=$1 status halted=0
    shift
    [ "$name" != gotos ] || halted=1
    lay "$name.ours" "$name" "$@"
    (cd "$name.ours" && "$web2c" prun "$name.p" "$@" >../console 2>&1)
    status=$?
    if [ $status != 0 ] || [ "$(cat console)" != "Halted with status $halted." ]; then
        fail "$name: status $status, $(cat console)"
    elif ! holds "$name.ours" "$name" "$@"; then
        fail "$name: another file"
    else
        pass
    fi
}

# A program as Free Pascal compiles it, to which the files other than `input` and `output` are named.
run_theirs() { # NAME FILES...
    local name=$1 file others=()
    shift
    lay "$name.theirs" "$name" "$@"
    for file in "$@"; do
        case $file in input | output) ;; *) others+=("$file") ;; esac
    done
    fpc -Miso -o"$folder/$name" -FU"$folder" "$name.theirs/$name.p" >compiled 2>&1 ||
        { fail "$name by fpc: $(grep -m 3 -i error compiled)"; return; }
    (cd "$name.theirs" && touch input && "../$name" "${others[@]}" <input >output) ||
        { fail "$name by fpc: it ended with an error"; return; }
    for file in "$@"; do
        tr -d '\032' <"$name.theirs/$file" >passed && mv passed "$name.theirs/$file"
    done
    if holds "$name.theirs" "$name" "$@"; then pass; else fail "$name by fpc: another file"; fi
}

command -v fpc >/dev/null || echo "Free Pascal (fpc) is not installed: what is kept of its runs is not compared with it"
for program in "$kept"/*.p; do
    name=$(basename "$program" .p)
    files=$(sed -n '1s/^program [a-z]*(\(.*\));$/\1/p' "$program" | tr -d ,)
    # shellcheck disable=SC2086 # the words are split here
    run_ours "$name" $files
    # shellcheck disable=SC2086 # the words are split here
    ! command -v fpc >/dev/null || run_theirs "$name" $files
done

# A program that calls a routine so often, each time inside so many statements of a kind, one in another, and two more
# with a list of arguments: the status of its run, what is printed, and what is written, if that is told.
deep() { # STATUS CONSOLE WRITTEN FORMS KIND CALLS
    local status
    awk -v forms="$4" -v kind="$5" -v calls="$6" -f "$top/tests/make_deep.awk" >deepest.p
    "$web2c" prun deepest.p made >console 2>/dev/null
    status=$?
    if [ $status = "$1" ] && [ "$(cat console)" = "$2" ] && { [ -z "$3" ] || [ "$(cat made)" = "$3" ]; }; then
        pass
    else
        fail "$6 calls, each inside $4 of the kind $5: status $status, $(cat console)"
    fi
}

# As many as a program may have, in a few calls, and in as many as may be active: these want more of the machine's stack
# than there is.
for kind in for repeat begin if index; do
    deep 0 'Halted with status 0.' 'done' 247 $kind 10
    deep 4 '' '' 247 $kind 999
done

echo "$passed passed, $failed failed"
[ "$failed" = 0 ]
