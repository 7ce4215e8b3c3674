#!/usr/bin/env bash
# Measures web2c beside TeX Live's tangle and pooltype (Debian's texlive-binaries) on made webs: the time of each, best
# of several runs in turn, their ratio, and the peak memory of web2c (by Debian's package time) beside the size of its
# input. Then it measures `prun` of a loop of integers, a sort by insertion, calls and a copy by chars beside the same
# in C as gcc -O0 makes it: the processor's time of each, best of three runs in turn, and their ratio, which is to be at
# most 60. No part of the gate. It takes sizes in bytes; without any, 300000 1000000 3000000 16000000.
set -u
top=$(cd "$(dirname "${BASH_SOURCE[0]}")/.." && pwd)
folder=$(mktemp -d) && cd "$folder" || exit 3
trap 'rm -rf "$folder"' EXIT
export WEBINPUTS=.
program=$top/out/web2c
[ -x "$program" ] || { echo "run ./web2c first, which builds the program"; exit 3; }

# The time of a command in microseconds, or - where it does not end with status 0.
time_of() { # WORDS...
    local begun=${EPOCHREALTIME/./}
    "$@" >output 2>&1 || { echo -; return; }
    echo $((${EPOCHREALTIME/./} - begun))
}

# The least times of web2c and of its peer over ten runs in turn, as ours and theirs; - where a run failed.
race() { # COMMAND OUR_FILE THEIR_FILE
    rm -f ours.times theirs.times
    for ((run = 0; run < 10; run++)); do
        time_of "$program" "$1" "$2" >>ours.times
        time_of "$1" "$3" >>theirs.times
    done
    ours=$(sort -n ours.times | head -n 1) theirs=$(sort -n theirs.times | head -n 1)
}

# The peak memory of a command in KiB.
peak() { /usr/bin/time -f %M -o memory "$@" >output 2>&1; tail -n 1 memory; } # WORDS...

# A line of the table: what was done, the sizes of input and output, both times and their ratio, and the memory.
row() { # NAME INPUT OUTPUT OURS THEIRS PEAK
    local ratio=-
    [ "$5" = - ] || ratio=$(awk -v a="$4" -v b="$5" 'BEGIN { printf "%.2f", a / b }')
    local times=$(awk -v k="$6" -v n="$2" 'BEGIN { printf "%.1f", k * 1024 / n }')
    printf '%-9s %10s bytes %9s bytes out %9s us, peer %9s us, ratio %5s, peak %7s KiB, %s times the input\n' \
        "$1" "$2" "$3" "$4" "$5" "$ratio" "$6" "$times"
}

for size in "${@:-300000 1000000 3000000 16000000}"; do
    for bytes in $size; do
        awk -v bytes="$bytes" -f "$top/tests/make_web.awk" >made.web
        cp made.web peer.web
        race tangle made.web peer.web
        row tangle "$(stat -c %s made.web)" "$(stat -c %s made.p)" "$ours" "$theirs" \
            "$(peak "$program" tangle made.web)"
    done
done

# A pool of 32,000 strings of 40 bytes.
awk 'BEGIN { for (n = 0; n < 32000; n++) printf "40string number %05d of the pool, with words\n", n
    print "*000000000" }' |
    cut -c 1-42 >made.pool
race pooltype made.pool made.pool
"$program" pooltype made.pool >listing
row pooltype "$(stat -c %s made.pool)" "$(stat -c %s listing)" "$ours" "$theirs" "$(peak "$program" pooltype made.pool)"

# The processor's time of a command in milliseconds, or - where it does not end with status 0.
processor_time_of() { # INPUT WORDS...
    local input=$1 TIMEFORMAT='%3U %3S'
    shift
    { time "$@" <"$input" >output 2>errors; } 2>timed || { echo -; return; }
    awk '{ printf "%d\n", 1000 * ($1 + $2) }' timed
}

# A Pascal program and the same in C, which reads this input, and the files of the former, the last of which is made: a
# line of the table.
run_row() { # NAME INPUT FILES...
    local name=$1 input=$2 ratio=-
    shift 2
    gcc -O0 -o "$name" "$name.c" || return
    rm -f ours.times theirs.times
    for ((run = 0; run < 3; run++)); do
        processor_time_of "$input" "./$name" >>theirs.times
        cp output wanted
        processor_time_of /dev/null "$program" prun "$name.p" "$@" >>ours.times
        cmp made wanted || return
    done
    ours=$(sort -n ours.times | head -n 1) theirs=$(sort -n theirs.times | head -n 1)
    [ "$ours" = - ] || ratio=$(awk -v a="$ours" -v b="$theirs" 'BEGIN { printf "%.1f", a / (b > 0 ? b : 1) }')
    printf 'prun %-7s %8s ms, gcc -O0 %6s ms, ratio %6s\n' "$name" "$ours" "$theirs" "$ratio"
}

cat >loop.p <<'END'
program loop(output);
var i, sum: integer;
begin
  sum := 0;
  for i := 1 to 20000000 do sum := (sum + i mod 7) mod 1000003;
  writeln(output, sum:1)
end.
END
cat >loop.c <<'END'
#include <stdio.h>
int i, sum;
int main(void) {
    sum = 0;
    for (i = 1; i <= 20000000; i++) sum = (sum + i % 7) % 1000003;
    printf("%d\n", sum);
    return 0;
}
END
cat >sort.p <<'END'
program sort(output);
const size = 10000;
var
  a: array [1..size] of integer;
  i, hole, item, seed, sum: integer;
  goes_on: boolean;
begin
  seed := 1;
  for i := 1 to size do
  begin
    seed := (seed * 421 + 1663) mod 7875;
    a[i] := seed
  end;
  for i := 2 to size do
  begin
    item := a[i];
    hole := i;
    goes_on := true;
    while goes_on do
      if hole = 1 then goes_on := false
      else if a[hole - 1] > item then
      begin
        a[hole] := a[hole - 1];
        hole := hole - 1
      end
      else goes_on := false;
    a[hole] := item
  end;
  sum := 0;
  for i := 1 to size do sum := (sum + i * a[i]) mod 1000003;
  writeln(output, sum:1)
end.
END
cat >sort.c <<'END'
#include <stdio.h>
#define SIZE 10000
int a[SIZE + 1], i, hole, item, seed, sum, goes_on;
int main(void) {
    seed = 1;
    for (i = 1; i <= SIZE; i++) {
        seed = (seed * 421 + 1663) % 7875;
        a[i] = seed;
    }
    for (i = 2; i <= SIZE; i++) {
        item = a[i];
        hole = i;
        goes_on = 1;
        while (goes_on)
            if (hole == 1) goes_on = 0;
            else if (a[hole - 1] > item) {
                a[hole] = a[hole - 1];
                hole = hole - 1;
            } else goes_on = 0;
        a[hole] = item;
    }
    sum = 0;
    for (i = 1; i <= SIZE; i++) sum = (sum + i * a[i]) % 1000003;
    printf("%d\n", sum);
    return 0;
}
END
cat >calls.p <<'END'
program calls(output);
function fibonacci(n: integer): integer;
begin
  if n < 2 then fibonacci := n else fibonacci := fibonacci(n - 1) + fibonacci(n - 2)
end;
begin
  writeln(output, fibonacci(30):1)
end.
END
cat >calls.c <<'END'
#include <stdio.h>
int fibonacci(int n) {
    int result;
    if (n < 2) result = n;
    else result = fibonacci(n - 1) + fibonacci(n - 2);
    return result;
}
int main(void) {
    printf("%d\n", fibonacci(30));
    return 0;
}
END
cat >copy.p <<'END'
program copy(input, output);
var c: char;
begin
  while not eof(input) do
    if eoln(input) then
    begin
      readln(input);
      writeln(output)
    end
    else
    begin
      read(input, c);
      write(output, c)
    end
end.
END
cat >copy.c <<'END'
#include <stdio.h>
int main(void) {
    int c;
    while ((c = getchar()) != EOF) putchar(c);
    return 0;
}
END
awk 'BEGIN { while (n < 10000000) { line = "a text, from its byte " n " on"; print line
    n += length(line) + 1 } }' >text
run_row loop /dev/null made
run_row sort /dev/null made
run_row calls /dev/null made
run_row copy text text made
