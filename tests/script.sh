#!/usr/bin/env bash
# Runs the script `web2c` in a folder of its own over a stand-in for Rattle's command rt: what it builds, runs and says.
set -u
top=$(cd "$(dirname "${BASH_SOURCE[0]}")/.." && pwd)
folder=$(mktemp -d) && cd "$folder" || exit 3
trap 'rm -rf "$folder"' EXIT
passed=0 failed=0

source=crates/web2c_cli/src/main.rt
mkdir -p bin crates/web2c_cli/{src,specs,proofs,out} || exit 3
cp "$top/web2c" . && touch crates.txt $source

# The stand-in builds a program that prints the word `built` and its source's text, and ends with the status that its
# first word tells. It does what `during` holds in the midst of that, and builds nothing where `broken` is there.
cat >bin/rt <<'RT'
#!/usr/bin/env bash
[ ! -f ../../broken ] || { echo "not proved"; exit 1; }
echo "echo built $(cat src/main.rt); exit \${1:-2}" >out/web2c_cli && chmod +x out/web2c_cli
. ../../during
echo "usage: web2c words"
exit 2
RT
chmod +x bin/rt && : >during

# Whether the script, called with this word, ends so: with this status, this text and this many lines of messages.
# The path has the stand-in where `here` is rt.
expect() { # NAME HERE WORD STATUS TEXT LINES
    local path=/usr/bin:/bin
    [ "$2" != rt ] || path=$folder/bin:$path
    PATH=$path ./web2c "$3" >text 2>messages
    local status=$?
    if [ $status = "$4" ] && [ "$(cat text)" = "$5" ] && [ "$(wc -l <messages)" = "$6" ]; then
        passed=$((passed + 1))
    else
        failed=$((failed + 1))
        echo "failed: $1: status $status"
        cat text messages
    fi
}

# A source that is newer than all that was built.
edit() { echo "$1" >$source && touch -d '+1 hour' $source; }

echo one >$source
expect 'no rt and no program' - 0 125 '' 1
expect 'a first build' rt 0 0 'built one' 1
expect 'a current program' rt 0 0 'built one' 0
expect 'a current program without rt' - 0 0 'built one' 0
expect 'a failed call' rt 3 3 'built one' 1
expect 'want of memory' rt 4 4 'built one' 1
expect 'a fault' rt 1 1 'built one' 0
edit two
expect 'an older program without rt' - 0 0 'built one' 2
touch broken
expect 'a build that fails' rt 0 125 '' 3
expect 'the program that was there' - 0 0 'built one' 2
rm broken && echo two >$source
echo "echo three >src/main.rt; touch -d '+1 second' src/main.rt" >during
expect 'a source changed during the build' rt 0 0 'built two' 1
: >during
expect 'the build after it' rt 0 0 'built three' 1

echo "$passed passed, $failed failed"
[ $failed = 0 ]
