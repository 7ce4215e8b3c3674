#!/usr/bin/env bash
# Runs the sample webs, with and without their change files, through web2c and through TeX Live's tangle (Debian's
# texlive-binaries), and compares the Pascal texts but for blanks and line ends, and the pools but for their last line:
# a check sum there, which web2c leaves out. Where Free Pascal is installed, the tangled sample is run. No part of the
# gate.
set -u
top=$(cd "$(dirname "${BASH_SOURCE[0]}")/.." && pwd)
folder=$(mktemp -d) && cd "$folder" || exit 3
trap 'rm -rf "$folder"' EXIT
export WEBINPUTS=.
passed=0 failed=0

# Counts a comparison, and tells what failed.
count() { # NAME COMMAND...
    local name=$1; shift
    if "$@" >differences 2>&1; then passed=$((passed + 1)); else
        failed=$((failed + 1))
        echo "failed: $name"
        head -5 differences
    fi
}

bytes() { tr -d ' \n' <"$1"; }
strings() { grep -v '^[*]' "$1"; }
same_bytes() { diff <(bytes "$1") <(bytes "$2"); }
same_strings() { diff <(strings "$1") <(strings "$2"); }

# The Pascal text and the pool of a web, by both.
compare() { # NAME WORDS...
    local name=$1; shift
    rm -rf ours theirs && mkdir ours theirs
    (cd ours && cp "$top"/examples/* . && "$top/web2c" tangle "$@") >/dev/null || return
    (cd theirs && cp "$top"/examples/* . && tangle "$@") >/dev/null || return
    local base=${1%.web}
    count "$name: Pascal" same_bytes "ours/$base.p" "theirs/$base.p"
    [ ! -s "theirs/$base.pool" ] || count "$name: pool" same_strings "ours/$base.pool" "theirs/$base.pool"
}

# The sample, compiled and run on two lines.
runs() { # NAME FIRST_LINE
    command -v fpc >/dev/null || return
    (cd ours && fpc -Miso count.p && printf 'to be or not to be\nthat is the question\n' | ./count count.pool >answer)
    count "$1: run" diff <(echo "$2") <(head -1 ours/answer)
}

compare hello hello.web
compare count count.web
runs count 'lines: 2'
compare 'count with changes' count.web count.ch
runs 'count with changes' 'Zeilen: 2'
echo "$passed passed, $failed failed"
[ "$failed" = 0 ]
