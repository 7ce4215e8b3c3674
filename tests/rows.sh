#!/usr/bin/env bash
# Runs the built program on the worked rows, in a folder of its own: words, web and change file in; status, console,
# Pascal file and pool out. An old `t.p` and an old `t.pool` stand there before each run. Then it runs Pascal programs:
# words, program and files in; status, console and files out. The rows come from the rules in docs/RULES.md, docs/WEB.md
# and docs/PASCAL.md. The program is the one that the first word names, as the gate built it; without a word it is run
# by the script `web2c`, which builds it, if need be.
set -u
tests=$(cd "$(dirname "${BASH_SOURCE[0]}")" && pwd)
script=${tests%/*}/web2c
web2c=$(readlink -f "${1:-$script}")
[ -x "$web2c" ] || { echo "there is no program $web2c"; exit 3; }
folder=$(mktemp -d) && cd "$folder" || exit 3
trap 'rm -rf "$folder"' EXIT
"$web2c" >/dev/null
passed=0 failed=0

# Runs the program on words, and looks at its status, the console, the Pascal file and the pool. Nothing stands on
# standard error, but one line of the script's own behind a failed call.
run() { # STATUS CONSOLE PASCAL POOL WORD...
    local wanted=$1 console=$2 pascal=$3 pool=$4 lines=0
    shift 4
    [ "$wanted" != 3 ] || [ "$web2c" != "$script" ] || lines=1
    "$web2c" "$@" >console 2>errors
    local status=$?
    if [ $status = "$wanted" ] && cmp -s console <(printf "$console") && cmp -s t.p <(printf "$pascal") &&
        cmp -s t.pool <(printf "$pool") && [ "$(wc -l <errors)" = $lines ]; then
        passed=$((passed + 1))
    else
        failed=$((failed + 1))
        printf 'failed: '
        printf '%q ' "$@"
        printf ': status %s, ' $status
        cat console errors t.p t.pool
    fi
}

# row WORDS WEB CHANGE STATUS CONSOLE PASCAL [POOL], each text as printf writes it; an empty change file is not there,
# and the pool is the old one where none is given
row() {
    rm -f t.ch
    printf "$2" >t.web
    [ -z "$3" ] || printf "$3" >t.ch
    printf old >t.p
    printf old >t.pool
    # shellcheck disable=SC2086 # the words are split here
    run "$4" "$5" "$6" "${7:-old}" $1
}

# pool POOL STATUS LINES LAST...: the listing of a.pool ends so, has that many lines, and the lines of the first strings
pool() {
    local status lines=$3 wanted=$2
    printf "$1" >a.pool
    shift 3
    "$web2c" pooltype a.pool >console 2>errors
    status=$?
    if [ $status = "$wanted" ] && [ "$(wc -l <console)" = "$lines" ] && [ ! -s errors ] &&
        cmp -s <(tail -n $# console) <(printf '%s\n' "$@") &&
        [ "$(sed -n '1p;35p;128p;256p' console)" = "$first_strings" ]; then
        passed=$((passed + 1))
    else
        failed=$((failed + 1))
        printf 'failed: pooltype of %q: status %s, ' "$*" $status
        tail -n 3 console
        cat errors
    fi
}
first_strings='  0: "^^@"
 34: """"
127: "^^?"
255: "^^ff"'

# words STATUS CONSOLE WORD...: the web is short and lawful, and all files stay as they are
words() {
    local status=$1 console=$2
    shift 2
    printf '@ @p aa' >t.web
    printf old >t.p
    printf old >t.pool
    run "$status" "$console" old old "$@"
}

usage='usage: web2c tangle|pooltype|convert|chain|prun|crun|gen [options] names\n'
# letters LETTER COUNT: a word of so many letters
letters() { printf "%$2s" | tr ' ' "$1"; }
# doubling COUNT: the definitions of so many macros, each of which is the next one twice
doubling() { for ((n = 0; n < $1; n++)); do printf '@d b%d==b%d b%d\\n' $n $((n + 1)) $((n + 1)); done; }
long=$(letters a 3001)
row 'tangle t.web' '@ @p program t; begin end.' '' 0 '' '{1:}program t;begin end.{:1}\n'
row 'tangle t.web' '@ @p aa bb' '' 0 '' '{1:}aa bb{:1}\n'
row 'tangle t.web' '@ @p x:=1' '' 0 '' '{1:}x:=1{:1}\n'
row 'tangle t.web' '@ @p x:=a+3-5; y:=2+3*4; z:=1 2' '' 0 '' '{1:}x:=a-2;y:=2+3*4;z:=12{:1}\n'
row 'tangle t.web' '@ @p x:=3@&4' '' 0 '' '{1:}x:=34{:1}\n'
row 'tangle t.web' '@ @p aa@\\bb' '' 0 '' '{1:}aa\nbb{:1}\n'
row 'tangle t.web' '@ @p 1 mm\n@ @d mm==2' '' 0 '' '{1:}12{:1}\n'
row 'tangle t.web' '@ @d mm=2\n@p 1 mm' '' 1 '! t.p:1: two numbers without a sign (F33)\n' ''
row 'tangle t.web' '@ @d mm=-3\n@d nn=mm+@'"'"'17+@"F+"a"\n@p x*mm;x-mm;x:=nn' '' 0 '' '{1:}x*(-3);x+3;x:=124{:1}\n'
row 'tangle t.web' '@ @d nn=nn+1' '' 1 '! t.web:1: bad numeric definition (F17)\n' old
row 'tangle t.web' '@ @p xx\n@ @d xx=1' '' 1 '! t.web:2: identifier already appeared (F19)\n' old
row 'tangle t.web' '@ @p x:=7 div 2+1; y:=6 DIV 4-3; z:=7 Mod 2+1' '' 0 '' \
    '{1:}x:=7 div 2+1;y:=6 DIV 4-3;z:=7 Mod 2+1{:1}\n'
row 'tangle t.web' '@ @p x\310' '' 1 '! t.web:1: bad byte (F8)\n' old
row 'tangle t.web' '@ text @p cc' '' 0 '' '{1:}cc{:1}\n'
row 'tangle t.web' '@ @p aa bb\n@ text @p cc' '' 0 '' '{1:}aa bb{:1}{2:}cc{:2}\n'
row 'tangle t.web' '' '' 0 '! No output was specified.\n' ''
row 'tangle t.web' '@ @p x:="ab"; y:="A"' '' 0 '' '{1:}x:=256;y:=65{:1}\n' '02ab\n*000000000\n'
row 'tangle t.web' '@ @p x:=""; y:=""""' '' 0 '' '{1:}x:=256;y:=34{:1}\n' '00\n*000000000\n'
row 'tangle t.web' '@ @p z:=@$' '' 1 '! t.web:1: check sum left out (F43)\n' old
row 'tangle t.web' '@ @p "ab"@\\bb @<X@>' '' 1 '! t.p:2: section not present (F29)\n' '{1:}256\n'
row 'tangle t.web' '@ @d aa==aa\n@p aa' '' 1 '! t.p:1: too many levels (F31)\n' ''
helpers='@ @d hlp1(#)==p(#);end\n@d hlp2(#)==p(#);hlp1\n@d help2==begin hlp2\n@p help2(a)(b)'
row 'tangle t.web' "$helpers" '' 0 '' '{1:}begin p(a);p(b);end{:1}\n'
pair='@ @d ff(#)==gg(#+#)\n@d gg(#)==#*#\n@p ff'
row 'tangle t.web' "$pair(k)" '' 0 '' '{1:}k+k*k+k{:1}\n'
row 'tangle t.web' "$pair;k" '' 1 '! t.p:1: no parameter given (F30)\n' ''
row 'tangle t.web' '@ @d ff(#)==#\n@p ff(ff(ff(k)))' '' 0 '' '{1:}k{:1}\n'
row 'tangle t.web' '@ @d ab==cd\n@p ab(ab)' '' 0 '' '{1:}cd(cd){:1}\n'
row 'tangle t.web' '@ @p @<Initialize@>@<Ini...@>\n@ @<Initialize@>=x;' '' 0 '' '{1:}{2:}x;{:2}{2:}x;{:2}{:1}\n'
row 'tangle t.web' '@ @p @<Initialize@>@<Ini...@>' '' 1 '! t.p:1: section not present (F29)\n' ''
row 'tangle t.web' '@ @p @<Ini...@>@<Initialize@>' '' 1 '! t.web:1: prefix matches no name (F25)\n' old
row 'tangle t.web' '@ @p @<Inner part@> @<Initialize@> @<In...@>' '' 1 \
    '! t.web:1: prefix matches several names (F26)\n' old
row 'tangle t.web' '@ @p @{@<X y@>@}\n@ @<X y@>=b;' '' 0 '' '{1:}{[2:]b;[:2]}{:1}\n'
row 'tangle t.web' "@ $(doubling 30)@d b30==\n@p b0" '' 1 '! t.p:1: too many steps (F32)\n' ''
levels=$(for ((n = 1; n < 200; n++)); do printf '@d c%d==c%d\\n' $n $((n - 1)); done)
row 'tangle t.web' "@ @d c0==x\n$levels@p c198" '' 0 '' '{1:}x{:1}\n'
row 'tangle t.web' "@ @d c0==x\n$levels@p c199" '' 1 '! t.p:1: too many levels (F31)\n' ''
row 'tangle t.web' "@ @p '$(letters b 70)'" '' 0 '' "{1:}\n'$(letters b 70)'\n{:1}\n"
row 'tangle t.web' "@ @p '$(letters b 71)'" '' 1 '! t.p:1: string too long (F36)\n' ''
word=$(letters b 50)
row 'tangle t.web' "@ @p x:=1; $word $(letters c 20)" '' 0 '' "{1:}x:=1;\n$word $(letters c 20)\n{:1}\n"
row 'tangle t.web' "@ @p x:=1; $word $(letters c 22)" '' 0 '' "{1:}x:=1;$word\n$(letters c 22){:1}\n"
row 'tangle t.web' "@ @p $word@&$(letters c 23)" '' 1 '! t.p:1: line too long to cut (F37)\n' ''
row 'tangle t.web' '@ @p foo_bar\n:=\nfoobar\n;' '' 1 '! t.web:3: identifier conflict (F21)\n' old
row 'tangle t.web' '@ @p @<Inner part@>\n@<Initialize@>\n@<In...@>\n;' '' 1 \
    '! t.web:3: prefix matches several names (F26)\n' old
row 'tangle t.web' '@ @p foo_bar:=foobar' '' 1 '! t.web:1: identifier conflict (F21)\n' old
row 'tangle --underline t.web' '@ @p foo_bar:=foobar' '' 0 '' '{1:}foo_bar:=foobar{:1}\n'
row 'tangle --underline --strict t.web' '@ @p foo_bar:=foobar' '' 1 '! t.web:1: identifier conflict (F21)\n' old
row 'tangle --uppercase t.web' '@ @p foo:=x' '' 0 '' '{1:}FOO:=X{:1}\n'
row 'tangle t.web --underline' '@ @p a_b:=c' '' 0 '' '{1:}a_b:=c{:1}\n'
row 'tangle --strict t.web' '@ @p foo_bar:=FOOBAR' '' 1 '! t.web:1: identifier conflict (F21)\n' old
row 'tangle t.web --length 2' '@ @p aab:=aac' '' 1 '! t.web:1: identifier conflict (F21)\n' old
row 'tangle t.web' "$long" '' 1 '! t.web:1: line too long (F1)\n' old
row 'tangle u.web' '@ @p aa' '' 3 '' old
row 'convert t.p' '@ @p aa' '' 2 "$usage" old
row 'tangle' '@ @p aa' '' 2 "$usage" old
row '' '@ @p aa' '' 2 "$usage" old
row 'tangle -t.web' '@ @p aa' '' 2 "$usage" old
row 'tangle .web' '@ @p aa' '' 2 "$usage" old
row 'tangle t.web t.ch u.ch' '@ @p aa' '' 2 "$usage" old
row 'tangle -- t.web' '@ @p aa' '' 0 '' '{1:}aa{:1}\n'
row 'tangle t.web --' '@ @p aa' '' 0 '' '{1:}aa{:1}\n'

words 2 "$usage" tangle -x t.web
words 2 "$usage" tangle --
words 3 '' tangle -- -t.web
words 3 '' tangle -
words 2 "$usage" tangle ''
words 2 "$usage" tangle 'a b.web'
words 2 "$usage" tangle 'a"b.web'
words 2 "$usage" tangle 'a\b.web'
words 2 "$usage" tangle $'a\x7fb.web'
words 2 "$usage" tangle $'a\xc8b.web'
words 2 "$usage" Tangle t.web
words 2 "$usage" tangle t.web --length 0
words 2 "$usage" tangle t.web --length=51
words 2 "$usage" tangle t.web --length
words 2 "$usage" tangle --strict --loose t.web
words 2 "$usage" tangle --underline --underline t.web
words 2 "$usage" tangle --uppercase --lowercase t.web
words 2 "$usage" ''

web='@ @p program t;\nbegin\nend.'
row 'tangle t.web t.ch' "$web" '@x\n\nbegin\nend;\n@y\nbegin end.\n@z' 1 '! t.ch:4: change lines differ (F7)\n' old
row 'tangle t.web t.ch' "$web" '@x\n\nbegin\nend.\n@y\nbegin end.\n@z' 0 '' '{1:}program t;begin end.{:1}\n'
row 'tangle t.web t.ch' "$web" '@x\n\nstart\nend.\n@y\nbegin end.\n@z' 1 '! t.ch:1: change block not found (F6)\n' old
row 'tangle t.web t.ch' "$web" '@x\n\nbegin\nend.\n@z\nbegin end.\n@z' 1 '! t.ch:1: no @y (F3)\n' old
row 'tangle t.web t.ch' '@ @p aa' '@x\n@ @p aa\n@y\n@ @p\na+b\n@z' 0 '' '{1:}a+b{:1}\n'
row 'tangle t.web t.ch' "$web" '@X text\nbegin \t\n@Y more\n@Z' 0 '' '{1:}program t;end.{:1}\n'
row 'tangle t.web t.ch' "$web" '@y' 1 '! t.ch:1: stray change mark (F2)\n' old
row 'tangle t.web t.ch' "$web" '@x\nend.\nmore\n@y\n@z' 1 '! t.ch:3: change lines differ (F7)\n' old
row 'tangle t.web t.ch' "$web" '@x\nend.\n@y\nend.\n@z\n@x\nbegin\n@y\n@z' 1 \
    '! t.ch:6: change block not found (F6)\n' old
row 'tangle t.web t.ch' "$web" '@x\n\n\n@y\n@z' 1 '! t.ch:1: empty change (F5)\n' old
row 'tangle t.web t.ch' "$web" 'no blocks here' 0 '' '{1:}program t;begin end.{:1}\n'
row 'tangle t.web t.ch' '@ text' '@x\na\n@y' 1 '! t.ch:1: no @z (F4)\n' old
row 'tangle t.web t.ch' "$web" '@x\nbegin\n@y\nx\n\310\n@z' 1 '! t.ch:5: bad byte (F8)\n' old
row 'tangle t.web t.ch' '@ @p aa' '' 3 '' old old

pool '02ab\n*123456789\n' 0 258 '256: "ab"' '(708 characters in all.)'
pool '02ab\n*12345678\n' 1 258 '256: "ab"' '! a.pool:2: bad last line (F42)'
# the pool of one string, cut to each length
for length in {0..16}; do
    cut=$(printf '02ab\n*000000000\n' | head -c "$length"; printf x)
    case $length in
    0) pool '' 1 257 '255: "^^ff"' '! a.pool:1: bad last line (F42)' ;;
    1) pool "${cut%x}" 1 257 '255: "^^ff"' '! a.pool:1: pool length bad (F40)' ;;
    2 | 3) pool "${cut%x}" 1 257 '255: "^^ff"' '! a.pool:1: pool line too short (F41)' ;;
    15 | 16) pool "${cut%x}" 0 258 '256: "ab"' '(708 characters in all.)' ;;
    *) pool "${cut%x}" 1 258 '256: "ab"' '! a.pool:2: bad last line (F42)' ;;
    esac
done

words 2 "$usage" pooltype
words 2 "$usage" pooltype a.pool b.pool
words 2 "$usage" pooltype -x a.pool
words 2 "$usage" pooltype --
words 2 "$usage" pooltype ''
words 2 "$usage" pooltype 'a b'
words 2 "$usage" pooltype 'a"b'
words 2 "$usage" pooltype $'a\x7fb'
words 3 '' pooltype b.pool
head -c 16777217 /dev/zero >a.pool
words 1 '! a.pool:0: limit passed: file bytes (F28)\n' pooltype -- a.pool

# prun PROGRAM GIVEN STATUS CONSOLE F OUT WORD...: the program is t.p; f and standard input hold what is given before
# the run, and out and other are old; behind it the console, f and out hold what is told, and t.p and other are as they
# were.
prun() {
    local program=$1 given=$2 wanted=$3 console=$4 f=$5 out=$6 lines=0
    shift 6
    printf -- "$program" >t.p
    printf -- "$given" | tee f >given
    printf old | tee out >other
    [ "$wanted" != 3 ] || [ "$web2c" != "$script" ] || lines=1
    "$web2c" prun "$@" <given >console 2>errors
    local status=$?
    if [ $status = "$wanted" ] && cmp -s console <(printf -- "$console") && cmp -s f <(printf -- "$f") &&
        cmp -s out <(printf -- "$out") && [ "$(cat other)" = old ] && cmp -s t.p <(printf -- "$program") &&
        [ "$(wc -l <errors)" = $lines ]; then
        passed=$((passed + 1))
    else
        failed=$((failed + 1))
        printf 'failed: prun '
        printf '%q ' "$@"
        printf 'of %s: status %s\n' "$program" $status
        tail -n 2 console errors f out
        echo
    fi
}

# judge NAME COMMAND...: a row that passes where the command does
judge() {
    local name=$1
    shift
    if "$@"; then
        passed=$((passed + 1))
    else
        failed=$((failed + 1))
        echo "failed: $name"
    fi
}

error_texts=(none 'undefined value' 'value out of its range' 'index out of range' 'integer past maxint'
    'division by zero' 'mod by a number below 1' 'chr out of range' 'no case matches' 'width below 1'
    'file not in the needed mode' 'at the end of the file' 'put of an undefined buffer' 'function result undefined'
    'uexit not in 0 to 255')

# The status and the line of an end of a run: a halt by its status, an error by E and its number, a call that is too
# deep, or a run that goes on behind so many steps.
end() { # END STEPS
    case $1 in
    E*) status=6 line="! Error: ${error_texts[${1#E}]} ($1)\n" ;;
    going) status=5 line="! Stopped after $2 steps.\n" ;;
    deep) status=7 line='! Calls nested too deep.\n' ;;
    *) status=0 line="Halted with status $1.\n" ;;
    esac
}

# does DECLARED DONE END WRITTEN: a program of `output`, how its run ends, and what it has written then
does() {
    end "$3"
    prun "program t(output);$1begin $2 end." '' $status "$line" '' "$4" t.p out
}

# files TYPE DONE GIVEN END F WRITTEN: a program of a file f of this type and of `output`
files() {
    end "$4"
    prun "program t(f,output);var b:boolean;c,d:char;i,j:integer;s:1..5;e:'a'..'c';a:array[1..2] of integer;f:$1;begin \
$2 end." "$3" $status "$line" "$5" "$6" t.p f out
}

# texts DONE GIVEN END F WRITTEN: a program of a text f; bytes: one of a file of bytes
texts() { files text "$@"; }
bytes() { files 'file of 0..255' "$@"; }

# reads GIVEN PROGRAM END WRITTEN: a program of `input` and `output`
reads() {
    end "$3"
    prun "$2" "$1" $status "$line" "$1" "$4" t.p f out
}

# steps STEPS PROGRAM END WRITTEN: a whole program of `output`, within a bound of steps
steps() {
    end "$3" "$1"
    prun "$2" '' $status "$line" '' "$4" --steps="$1" t.p out
}

# talks GIVEN PROGRAM END WRITTEN WORD...: what is written is on the console, before the line of the end
talks() {
    local given=$1 program=$2 written=$4
    end "$3" 3
    shift 4
    prun "$program" "$given" $status "$written$line" "$given" old t.p "$@"
}

# fault PROGRAM LINE FAULT: the files of the run, and one more, are as they were
fault() { prun "$1" given 1 "! t.p:$2: $3\n" given old t.p out f other; }

# some whole programs
to_last='program t(output);var i:integer;begin for i:=2147483646 to 2147483647 do writeln(output,i:1) end.'
and_then="program t(output);\nvar k,n:integer;\nfunction g(x:integer):boolean;\nbegin write(output,x:1);g:=true end;\n\
begin k:=1;n:=0;if (k<=n) and g(k) then write(output,'y');\nn:=1;if (k<=n) and g(k) then write(output,'z') end."
endless="program t(output);begin while true do write(output,'x') end."
deeper='program t;procedure q;begin q end;begin q end.'
writes="program t(output);begin write(output,'ab') end."
echoes='program t(input,output);var c:char;begin while not eof do begin read(c);
if eoln then writeln else write(c) end end.'
copies='program t(input,output);begin while not eof do if eoln then begin readln;writeln end else begin write(input^);
get(input) end end.'
nothing='program t;begin end.'

steps 0 "$to_last" going ''
steps 1 "$to_last" going '2147483646\n'
steps 2 "$to_last" 0 '2147483646\n2147483647\n'
steps 1000000000 "$to_last" 0 '2147483646\n2147483647\n'
does '' 'write(output,(-7) mod 3:1,(-7) div 2:3,(-1) mod 2147483647:11)' 0 '2 -3 2147483646'
does 'var i:integer;a:array[1..2] of integer;function f(var x:integer):integer;begin x:=x+1;f:=7 end;' \
    'i:=1;a[1]:=0;a[2]:=0;a[i]:=f(i);writeln(output,a[1]:1,a[2]:1)' 0 '07\n'
steps 0 "$and_then" going ''
steps 1 "$and_then" 0 1z
steps 2 "$and_then" 0 1z
steps 0 "$endless" going ''
steps 1 "$endless" going x
steps 1000 "$endless" going "$(letters x 1000)"
does "label 9999;\nprocedure q;\nbegin write(output,'a');goto 9999 end;\n" "q;write(output,'b');\n9999:" 1 a
prun "$deeper" '' 7 '! Calls nested too deep.\n' '' old --steps=5000 t.p
prun "$deeper" '' 5 '! Stopped after 500 steps.\n' '' old --steps=500 t.p
prun 'program t;var i:integer;begin i:=i+1 end.' '' 6 '! Error: undefined value (E1)\n' '' old t.p
reads ab "$echoes" E11 'a\n'
does '' 'write(output,-7:4)' 0 '  -7'
does 'var i:integer;' 'for i:=-2147483646 downto -2147483647 do write(output,i:12)' 0 ' -2147483646 -2147483647'

# the words of prun
words 2 "$usage" prun
words 2 "$usage" prun .p
words 2 "$usage" prun .p out
words 2 "$usage" prun --
words 2 "$usage" prun --steps=5
words 2 "$usage" Prun t.p
words 2 "$usage" pruns t.p
words 2 "$usage" prun t.p --steps=1000000001
words 2 "$usage" prun t.p --steps=99999999999999999999
words 2 "$usage" prun t.p --steps=18446744073709551616
words 2 "$usage" prun t.p --steps=
words 2 "$usage" prun t.p --steps
words 2 "$usage" prun t.p --steps ''
words 2 "$usage" prun t.p --steps --
words 2 "$usage" prun t.p --steps out
words 2 "$usage" prun t.p --steps=-1
words 2 "$usage" prun t.p --steps -1
words 2 "$usage" prun t.p --steps=+1
words 2 "$usage" prun t.p --steps=1x
words 2 "$usage" prun t.p '--steps= 1'
words 2 "$usage" prun t.p --steps=1 --steps=1
words 2 "$usage" prun --steps 1 t.p --steps=2
words 2 "$usage" prun --step=1 t.p
words 2 "$usage" prun --Steps=1 t.p
words 2 "$usage" prun --strict t.p
words 2 "$usage" prun --lines=50 t.p
words 2 "$usage" prun --length 5 t.p
words 2 "$usage" prun -t.p
words 2 "$usage" prun t.p -out
words 2 "$usage" prun ''
words 2 "$usage" prun t.p ''
words 2 "$usage" prun t.p out ''
words 2 "$usage" prun t.p 'a b'
words 2 "$usage" prun t.p 'a"b'
words 2 "$usage" prun t.p 'a\b'
words 2 "$usage" prun t.p $'a\x7fb'
words 2 "$usage" prun t.p $'a\xc8b'
words 2 "$usage" prun t.p $'a\tb' out
words 2 "$usage" tangle --steps=1 t.web
words 2 "$usage" pooltype --steps=1 t.pool
words 2 "$usage" crun t out
words 3 '' prun u.p
words 3 '' prun u.p out
words 3 '' prun t
words 3 '' prun -
words 3 '' prun -- -t.p
words 3 '' prun :std
words 3 '' prun . out
prun "$writes" '' 0 'Halted with status 0.\n' '' ab t.p out
prun "$writes" '' 0 'Halted with status 0.\n' '' ab ./t.p ./out
prun "$writes" '' 0 'Halted with status 0.\n' '' ab -- t.p out
prun "$writes" '' 0 'Halted with status 0.\n' '' ab t.p -- out
prun "$writes" '' 0 'Halted with status 0.\n' '' ab t.p out --
prun "$to_last" '' 5 '! Stopped after 1 steps.\n' '' '2147483646\n' t.p out --steps 1
prun "$to_last" '' 5 '! Stopped after 1 steps.\n' '' '2147483646\n' t.p --steps 1 out
prun "$to_last" '' 5 '! Stopped after 1 steps.\n' '' '2147483646\n' --steps 1 t.p out
prun "$to_last" '' 5 '! Stopped after 1 steps.\n' '' '2147483646\n' t.p --steps=0000000000000000000001 -- out
prun "$to_last" '' 0 'Halted with status 0.\n' '' '2147483646\n2147483647\n' t.p out --steps=01000000000

# FILE words: too few, too many, such that can't be opened, and one file twice
prun "$to_last" '' 1 '! t.p:1: file rule (F61)\n' '' old t.p
prun '{ a }\n\nprogram t(output);\nbegin end.' '' 1 '! t.p:3: file rule (F61)\n' '' old t.p
prun '\nprogram\nt(f,\noutput);var f:text;begin end.' '' 1 '! t.p:2: file rule (F61)\n' '' old t.p out
prun "$to_last" '' 1 '! ./t.p:1: file rule (F61)\n' '' old ./t.p
prun 'program t(output);begin\nx:=1 end.' '' 1 '! t.p:2: unknown name (F54)\n' '' old t.p
prun "$to_last" '' 1 '! t.p:1: file rule (F61)\n' '' old t.p --steps=0
prun "$writes" given 0 'Halted with status 0.\n' given ab t.p out f other
prun "$writes" given 0 'Halted with status 0.\n' given ab t.p out other missing/file
prun "$nothing" given 0 'Halted with status 0.\n' given old t.p
prun "$nothing" given 0 'Halted with status 0.\n' given old t.p out f other missing/file :std
prun "$nothing" given 0 'Halted with status 0.\n' given old t.p --steps=0 out
prun "$copies" 'a\n\nb' 3 '' 'a\n\nb' old t.p missing out
prun "$copies" 'a\n\nb' 0 'Halted with status 0.\n' 'a\n\nb' 'a\n\nb\n' t.p f out
prun "program t(output,input);begin end." '' 3 '' '' '' t.p out missing
prun "program t(f,output);var f:text;begin write('a') end." '' 0 'Halted with status 0.\n' '' a t.p missing out
prun "program t(f,output);var f:text;begin reset(f) end." '' 3 '' '' '' t.p missing out
prun "$writes" '' 3 '' '' old t.p missing/file
prun "$writes" '' 3 '' '' old t.p .
prun "program t(output,input);var c:char;begin read(c) end." '' 3 '' '' '' t.p out .
prun "$writes" '' 3 '' '' old t.p /dev/full
prun "$endless" '' 3 '' '' old t.p /dev/full --steps=200000
prun "program t(f,output);var f:text;begin reset(f);write(f^);get(f);write(f^) end." '' 0 \
    'Halted with status 0.\n' '' pr t.p t.p out
prun "program t(f,g);var f,g:text;c:char;begin reset(f);read(f,c);rewrite(g);write(g,c) end." ab 0 \
    'Halted with status 0.\n' a old t.p f f
prun "program t(f,g);var f,g:text;c:char;begin rewrite(f);write(f,'xy');reset(f);reset(g);read(g,c,c);rewrite(f);
write(f,c,c) end." ab 0 'Halted with status 0.\n' yy old t.p f ./f
prun "program t(f,output);var f:text;begin rewrite(f);write(f,'u');write(output,'v') end." ab 0 \
    'Halted with status 0.\n' v u t.p out f
prun "program t(output,input);begin write(input^) end." ab 0 'Halted with status 0.\n' ab a t.p out f

# the standard streams, and the order of what is printed
talks '' "$writes" 0 ab :std
talks '' "program t(output);var i:integer;begin write(output,'ab');i:=i;write(output,'c') end." E1 ab :std
talks '' "$endless" going xxx :std --steps=3
talks '' "program t(output);procedure q;begin q end;begin writeln(output,'a');q end." deep 'a\n' :std
talks '' "program t(output);begin write(output,'a');uexit(3);write(output,'b') end." 3 a :std
talks 'ab\ncd\n' "$copies" 0 'ab\ncd\n' :std :std
talks ab "$copies" 0 'ab\n' :std :std
talks ab "$echoes" E11 'a\n' :std :std
talks ab "$copies" 0 'ab\n' f :std
talks ab "program t(output,input);var c:char;begin read(c);write(c) end." 0 a :std :std
talks ab "program t(f,g);var f,g:text;begin rewrite(f);rewrite(g);write(f,'1');write(g,'2');write(f,'3') end." 0 123 \
    :std :std
talks ab "program t(f,output);var f:text;c:char;begin reset(f);reset(f);read(f,c);write(c) end." 0 a :std :std
prun "$copies" 'ab\ncd' 0 'Halted with status 0.\n' 'ab\ncd' 'ab\ncd\n' t.p :std out
prun "$writes" given 0 'abHalted with status 0.\n' given old t.p :std out f
prun "program t(f,output);var f:text;c:char;begin reset(f);read(f,c);reset(f) end." ab 3 '' ab '' t.p :std out
prun "program t(f,g);var f,g:text;begin rewrite(f);rewrite(g);write(f,'1');write(g,'2');write(f,'3') end." '' 0 \
    'Halted with status 0.\n' 13 2 t.p f out

# A question is seen before its answer is awaited.
printf "program t(input,output);begin write('name? ');writeln('so ',input^) end." >t.p
mkfifo answers questions
timeout 60 "$web2c" prun t.p :std :std <answers >questions 2>errors &
exec {answers}>answers {questions}<questions
trap '' PIPE
IFS= read -r -N 6 -u "$questions" question
printf 'x\n' >&"$answers"
trap - PIPE
judge "a question and its answer: $question" [ "$question$(cat <&"$questions")" = $'name? so x\nHalted with status 0.' ]
exec {answers}>&- {questions}<&-
wait

# A console that fails behind a run, which is whole then, and one that is the file of the run.
printf "$writes" >t.p
"$web2c" prun t.p out >/dev/full 2>errors
judge 'a console that fails' [ "$? $(cat out)" = '3 ab' ]
"$web2c" prun t.p :std >/dev/full 2>errors
judge 'a standard output that fails' [ $? = 3 ]

# more than is gathered or read at once
many=$(letters x 20000)
does 'var i:integer;' "for i:=1 to 20000 do write(output,'x')" 0 "$many"
does '' "write(output,'x':20000)" 0 "$(letters ' ' 19999)x"
talks '' "program t(output);var i:integer;begin for i:=1 to 20000 do write(output,'x') end." 0 "$many" :std
talks "$many" "$copies" 0 "$many\n" :std :std
reads "$many\n$many" "$copies" 0 "$many\n$many\n"
bytes "for i:=1 to 20000 do begin if i=1 then rewrite(f);write(f,120) end" '' 0 "$many" ''

# texts and files of bytes, as they are read
texts 'write(output,1)' ab 0 ab 1
reads '' "program t(input,output);begin write(output,ord(eof)) end." 0 1
reads '\n' "program t(input,output);begin write(output,ord(eof),ord(eoln),'<',input^,'>') end." 0 '01< >'
reads 'a\n\nb' "program t(input,output);begin while not eof do begin if eoln then write('/') else write(input^);
get(input) end end." 0 'a//b/'
reads 'ab\ncd\n' "program t(input,output);var c:char;begin readln(c);write(c);readln(c);write(c,ord(eof)) end." 0 ac1
reads 'abcd' "program t(input,output);var c,d:char;begin read(c,d);write(d,c);readln;write(ord(eof)) end." 0 ba1
reads 'a\r\n\032\377' "program t(input,output);begin while not eof do begin write(ord(input^):4);get(input) end end." \
    0 '  97  13  32  26 255  32'
texts 'reset(f);while not eof(f) do begin write(output,ord(f^):3);get(f) end' 'a\n' 0 'a\n' ' 97 32'
files 'file of char' 'reset(f);while not eof(f) do begin write(output,ord(f^):3);get(f) end' 'a\n' 0 'a\n' ' 97 10'
files 'file of char' 'reset(f);while not eof(f) do begin read(f,c);write(output,c) end' ab 0 ab ab
bytes 'rewrite(f);write(f,0,255,10,13);reset(f);while not eof(f) do begin read(f,i);write(output,i:4) end' '' 0 \
    '\000\377\n\r' '   0 255  10  13'
bytes 'reset(f);while not eof(f) do begin write(output,f^:4);get(f) end' 'a\n\000\377' 0 \
    'a\n\000\377' '  97  10   0 255'
files 'file of 3..7' 'rewrite(f);f^:=3;put(f);write(f,7);reset(f);read(f,i,j);write(output,i,j)' ab 0 '\003\007' 37
texts "reset(f);c:=f^;rewrite(f);f^:=c;put(f);f^:='z';put(f);reset(f);write(output,f^);get(f);write(output,f^)" ab 0 \
    az az
texts "rewrite(f);write(f,'a');reset(f);write(output,f^);rewrite(f);write(f,'b');reset(f);write(output,f^)" '' 0 b ab
texts "rewrite(f);write(f,'c':3,'it''s':6,12:4,'abc':2,'abc':4,chr(255));writeln(f);writeln(f,-5,ord(true=b):1)" '' E1 \
    "  c  it's  12ab abc\377\n-5" ''
texts "rewrite(f);b:=eof(f);write(output,ord(b));writeln(f,'x');write(output,ord(eof(f)))" ab 0 'x\n' 11
texts "write(output,'ab');reset(output);write(f^)" ab E10 ab ab
does 'var c:char;' "write(output,'ab');reset(output);read(output,c);rewrite(output);write(output,c,c)" 0 aa
does "procedure p(var g:text);begin write(g,'p');writeln(g) end;" 'p(output);p(output)' 0 'p\np\n'
does '' "writeln;writeln(output);write('a':1,1:1,'bc':2);writeln('d',2:2,'ef':3)" 0 '\n\na1bcd 2 ef\n'

# E1: an undefined value, of i, b or c beside j, d or e
v='var i,j:integer;b,d:boolean;c,e:char;a:array[1..2] of integer;r:record x,y:integer end;'
while read -r operator value; do
    does "$v" "i:=7;write(output,i $operator 2);write(output,j $operator 2)" E1 "$value"
    does "$v" "i:=2;write(output,7 $operator i);write(output,7 $operator j)" E1 "$value"
done <<'END'
+ 9
- 5
* 14
div 3
mod 1
END
while read -r operator value; do
    does "$v" "i:=1;write(output,ord(i $operator 2));write(output,ord(j $operator 2))" E1 "$value"
    does "$v" "i:=2;write(output,ord(1 $operator i));write(output,ord(1 $operator j))" E1 "$value"
done <<'END'
= 0
<> 1
< 1
<= 1
> 0
>= 0
END
does "$v" "c:='a';write(output,ord(c='a'));write(output,ord(e='a'))" E1 1
does "$v" "b:=true;write(output,ord(b>false));write(output,ord(d>false))" E1 1
does "$v" 'i:=2;write(output,-i);write(output,-j)' E1 -2
does "$v" 'i:=2;write(output,+i);write(output,+j)' E1 2
does "$v" 'b:=true;write(output,ord(not b));write(output,ord(not d))' E1 0
does "$v" 'b:=true;write(output,ord(b and false));write(output,ord(d and false))' E1 0
does "$v" 'write(output,ord(false and d));write(output,ord(true and d))' E1 0
does "$v" 'b:=false;write(output,ord(b or true));write(output,ord(d or true))' E1 1
does "$v" 'write(output,ord(true or d));write(output,ord(false or d))' E1 1
does "$v" "c:='a';write(output,ord(c));write(output,ord(e))" E1 97
does "$v" 'i:=97;write(output,chr(i));write(output,chr(j))' E1 a
does "$v" 'i:=-2;write(output,abs(i));write(output,abs(j))' E1 2
does "$v" 'i:=3;write(output,ord(odd(i)));write(output,ord(odd(j)))' E1 1
does "$v" 'i:=3;i:=i;write(output,i);i:=j;write(output,i)' E1 3
does "$v" "c:='a';c:=c;write(output,c);c:=e" E1 a
does "$v" 'b:=true;b:=b;write(output,ord(b));b:=d' E1 1
does "$v" 'a[1]:=5;i:=a[1];write(output,i);i:=a[2]' E1 5
does "$v" 'r.x:=5;i:=r.x;write(output,i);i:=r.y' E1 5
does "$v" 'i:=1;a[i]:=5;write(output,a[1]);a[j]:=6' E1 5
does "$v" 'i:=1;a[1]:=5;write(output,a[i]);write(output,a[j])' E1 5
does "${v}procedure p(var x:integer);begin x:=5 end;" 'i:=1;p(a[i]);write(output,a[1]);p(a[j])' E1 5
does "${v}procedure p(x:integer);begin write(output,x) end;" 'i:=4;p(i);p(j)' E1 4
does "${v}procedure p(x:char);begin write(output,x) end;" "c:='a';p(c);p(e)" E1 a
does "${v}procedure p(var x:integer);begin write(output,1);x:=x+1 end;" 'i:=4;p(i);write(output,i);p(j)' E1 151
does "${v}function f(x:integer):integer;begin f:=x end;" 'i:=4;write(output,f(i));write(output,f(j))' E1 4
does "$v" "b:=true;if b then write(output,'t');if d then write(output,'u') else write(output,'v')" E1 t
does "$v" "b:=true;while b do begin write(output,'w');b:=false end;while d do write(output,'x')" E1 w
does "$v" "b:=true;repeat write(output,'r') until b;repeat write(output,'s') until d" E1 rs
does "$v" "i:=1;case i of 1:write(output,'c') end;case j of 1:write(output,'d');others:write(output,'o') end" E1 c
does "$v" 'i:=1;for i:=i to 2 do write(output,i);for i:=j to 2 do write(output,i)' E1 12
does "$v" 'i:=2;for i:=1 to i do write(output,i);for i:=1 to j do write(output,i)' E1 12
does "$v" 'for i:=1 to 2 do write(output,i);write(output,i)' E1 12
does "$v" 'i:=5;for i:=2 to 1 do write(output,i);write(output,3);write(output,i)' E1 3
does "$v" 'for i:=1 downto 2 do;i:=4;write(output,i);for i:=3 downto 3 do write(output,i);write(output,i)' E1 43
does "label 5;$v" 'for i:=1 to 3 do if i=2 then goto 5;5:write(output,i)' 0 2
does "$v" 'for i:=1 to 2 do begin for i:=3 to 3 do write(output,i);write(output,4) end' E1 34
does "$v" 'i:=5;write(output,i,2);write(output,1,j,2)' E1 521
does "$v" "c:='a';write(output,c);write(output,'b',e)" E1 ab
does "$v" 'i:=2;write(output,1:i);write(output,1:j)' E1 ' 1'
does "$v" "i:=2;write(output,'a':i);write(output,'a':j)" E1 ' a'
does "$v" "i:=2;write(output,'abc':i);write(output,'abc':j)" E1 ab
does "$v" 'i:=2;writeln(output,1:i);writeln(output,i,1:j)' E1 ' 1\n2'
does "$v" 'i:=2;writeln(output,i);writeln(output,j)' E1 '2\n'
does "$v" 'write(output,1);i:=7;if i=7 then uexit(j)' E1 1
does "${v}procedure p;var x:integer;begin if i=1 then x:=3;write(output,x) end;" 'i:=1;p;i:=2;p' E1 3
does "var i:integer;a,b:array[1..2] of integer;" 'a[1]:=5;b:=a;write(output,b[1]);i:=b[2]' E1 5
does "var i:integer;a,b:record x,y:integer end;" 'a.x:=5;b:=a;write(output,b.x);i:=b.y' E1 5
does "type s=array[1..2] of integer;var a:s;procedure p(x:s);begin write(output,x[2]);write(output,x[1]) end;" \
    'a[2]:=3;p(a)' E1 3
texts "c:='a';rewrite(f);f^:=c;put(f);f^:=d" '' E1 a ''
texts "c:='a';rewrite(f);write(f,c);write(f,'b',d)" '' E1 ab ''
bytes 'i:=97;rewrite(f);write(f,i);write(f,98,j)' '' E1 ab ''
bytes 'i:=97;rewrite(f);f^:=i;put(f);f^:=j' '' E1 a ''
texts 'i:=1;reset(f);read(f,c);write(output,c);a[1]:=ord(f^);write(output,a[i]);write(output,a[j])' ab E1 ab a98

# E2: a value out of its range
does 'var s:1..5;' 's:=5;write(output,s);s:=6' E2 5
does 'var s:1..5;' 's:=1;write(output,s);s:=0' E2 1
does "var c:'a'..'c';" "c:='c';write(output,c);c:='d'" E2 c
does 'var b:false..false;' 'b:=false;write(output,ord(b));b:=true' E2 0
does 'var s:-3..-1;' 's:=-3;write(output,s);s:=-4' E2 -3
does 'var a:array[1..2] of 1..5;' 'a[1]:=5;write(output,a[1]);a[2]:=6' E2 5
does 'var r:record x:1..5 end;' 'r.x:=5;write(output,r.x);r.x:=6' E2 5
does 'type s=1..5;procedure p(x:s);begin write(output,x) end;' 'p(5);p(6)' E2 5
does 'type s=1..5;procedure p(x:s;y:integer);begin write(output,x,y) end;' 'p(5,1);p(6,1 div 0)' E2 51
does 'type s=1..5;procedure p(x:s;y:integer);begin write(output,x,y) end;' 'p(5,1);p(5,1 div 0)' E5 51
does 'type s=1..5;var i:s;procedure p(var x:s);begin x:=x+1 end;' 'i:=4;p(i);write(output,i);p(i)' E2 5
does 'type s=1..5;function f(x:integer):s;begin f:=x end;' 'write(output,f(5));write(output,f(6))' E2 5
does 'var s:1..5;' 'for s:=4 to 5 do write(output,s);for s:=4 to 6 do write(output,s)' E2 45
does 'var s:1..5;' 'for s:=1 to 2 do write(output,s);for s:=0 to 2 do write(output,s)' E2 12
does 'var s:1..5;' 'for s:=2 downto 1 do write(output,s);for s:=2 downto 0 do write(output,s)' E2 21
does 'var s:1..5;' 'for s:=5 downto 4 do write(output,s);for s:=6 downto 4 do write(output,s)' E2 54
does 'var s:1..5;' 'for s:=9 to 8 do write(output,s);for s:=0 downto 9 do write(output,s);write(output,1)' 0 1
does 'var s:1..5;' 'for s:=1 to 5 do begin write(output,s);s:=5 end;for s:=1 to 2 do begin write(output,s);s:=5 end' \
    E2 11
does "var c:char;" "for c:=chr(254) to chr(255) do write(output,ord(c):4)" 0 ' 254 255'
does 'var b:boolean;' 'for b:=false to true do write(output,ord(b));for b:=true downto false do write(output,ord(b))' \
    0 0110
texts 'reset(f);read(f,e);write(output,e);read(f,e)' cd E2 cd c
bytes 'reset(f);read(f,s);write(output,s);read(f,s)' '\005\006' E2 '\005\006' 5
files 'file of 0..100' 'reset(f);read(f,i);write(output,i);read(f,i)' 'de' E2 de 100
files 'file of 0..100' 'reset(f);i:=f^;write(output,i);get(f);i:=f^' 'de' E2 de 100
files 'file of 0..100' 'reset(f);get(f);write(output,f^)' '\310\007' 0 '\310\007' 7
files 'file of 0..100' 'rewrite(f);write(f,100);write(f,101)' '' E2 d ''
files 'file of 0..100' 'rewrite(f);f^:=100;put(f);f^:=101' '' E2 d ''
bytes 'rewrite(f);write(f,255,0);write(f,7,-1)' '' E2 '\377\000\007' ''
bytes 'rewrite(f);f^:=255;put(f);f^:=256' '' E2 '\377' ''

# E3: an index out of its range
does 'var a:array[1..2] of integer;' 'a[2]:=4;write(output,a[2]);a[3]:=1' E3 4
does 'var a:array[1..2] of integer;' 'a[1]:=4;write(output,a[1]);a[0]:=1' E3 4
does 'var a:array[1..2] of integer;' 'a[2]:=4;write(output,a[2]);write(output,a[3])' E3 4
does 'var a:array[1..2] of integer;' 'a[1]:=4;write(output,a[1]);write(output,a[0])' E3 4
does 'var a:array[-2..-1] of char;' "a[-2]:='x';write(output,a[-2]);a[0]:='y'" E3 x
does "var a:array['b'..'c'] of integer;" "a['c']:=1;write(output,a['c']);a['d']:=1" E3 1
does 'var a:array[char] of integer;' 'a[chr(255)]:=1;write(output,a[chr(255)]);a[chr(256)]:=1' E7 1
does 'var a:array[true..true] of integer;' 'a[true]:=1;write(output,a[true]);a[false]:=1' E3 1
does 'var a:array[boolean] of integer;' 'a[true]:=1;a[false]:=2;write(output,a[true],a[false])' 0 12
does 'var a:array[1..2,3..4] of integer;' 'a[2,4]:=1;write(output,a[2][4]);a[2,2]:=1' E3 1
does 'var a:array[1..2,3..4] of integer;' 'a[2][4]:=1;write(output,a[2,4]);a[3,4]:=1' E3 1
does 'var a:array[1..2] of record x:array[1..2] of integer end;' \
    'a[2].x[2]:=1;write(output,a[2].x[2]);a[2].x[3]:=1' E3 1
does 'var a:array[1..2] of integer;procedure p(var x:integer);begin x:=7 end;' 'p(a[2]);write(output,a[2]);p(a[3])' E3 7
does 'var a,b:array[1..2] of array[1..2] of char;' "a[1,1]:='x';b[2]:=a[1];write(output,b[2,1]);b[2]:=a[0]" E3 x
texts 'reset(f);i:=1;read(f,c);write(output,c);a[i]:=2;i:=3;a[i]:=ord(f^)' ab E3 ab a
bytes 'reset(f);read(f,a[2]);write(output,a[2]);read(f,a[3])' ab E3 ab 97
does 'var a:array[1..2,3..4] of integer;' 'write(output,1);a[3,1 div 0]:=1' E3 1
does 'var a:array[1..2,3..4] of integer;' 'write(output,1);a[1 div 0,9]:=1' E5 1
does 'var a:array[1..2] of integer;' 'write(output,1);a[3]:=1 div 0' E5 1
does 'var a:array[1..2] of 1..5;' 'write(output,1);a[3]:=6' E3 1

# E4: an integer past maxint
does 'var i:integer;' 'i:=maxint-1+1;write(output,i);i:=i+1' E4 2147483647
does 'var i:integer;' 'i:=-maxint+1-1;write(output,i);i:=i-1' E4 -2147483647
does '' 'write(output,46340*46340);write(output,46341*46341)' E4 2147395600
does '' 'write(output,maxint*(-1));write(output,maxint*(-2))' E4 -2147483647
does '' 'write(output,maxint+(-1)+1);write(output,maxint+1-1)' E4 2147483647
does '' 'write(output,1:maxint-2147483646);write(output,1:maxint+1)' E4 1
does '' 'write(output,(-maxint) div (-1),abs(-maxint))' 0 21474836472147483647
does 'var i:integer;' 'for i:=1 to maxint do begin write(output,i);i:=maxint end;for i:=1 to 2 do i:=maxint' E4 1
does 'var i:integer;' \
    'for i:=1 downto -maxint do begin write(output,i);i:=-maxint end;for i:=2 downto 1 do i:=-maxint' E4 1
does 'var s:0..maxint;' 'for s:=1 to 2 do begin write(output,s);s:=maxint end' E4 1
does 'function f(n:integer):integer;begin if n<2 then f:=1 else f:=n*f(n-1) end;' \
    'write(output,f(12));write(output,f(13))' E4 479001600

# E5 and E6: a division by zero, and mod by a number below 1
does '' 'write(output,7 div 2,(-7) div 2,7 div (-2),(-7) div (-2));write(output,7 div 0)' E5 3-3-33
does 'var i:integer;' 'i:=1;write(output,0 div i);i:=0;write(output,0 div i)' E5 0
does '' 'write(output,7 mod 2,(-7) mod 2,(-6) mod 2,0 mod 1);write(output,7 mod 0)' E6 1100
does 'var i:integer;' 'i:=1;write(output,7 mod i);i:=-2;write(output,7 mod i)' E6 0
does '' 'write(output,1);write(output,(1 mod 0)+(1 div 0))' E6 1
does '' 'write(output,1);write(output,(1 div 0)*(1 mod 0))' E5 1
does '' 'write(output,1);if (1 mod 0)=(1 div 0) then' E6 1
does 'procedure p(x,y:integer);begin end;' 'write(output,1);p(1 mod 0,1 div 0)' E6 1
does '' 'write(output,1 mod 2:1,1 div 1:1 mod 0)' E6 1

# E7 and E8: chr out of range, and a case without a match
does '' 'write(output,chr(65),ord(chr(255)));write(output,chr(256))' E7 A255
does '' 'write(output,ord(chr(0)));write(output,chr(-1))' E7 0
does 'var i:integer;' "for i:=1 to 3 do case i of 1:write(output,'a');2:write(output,'b') end" E8 ab
does 'var i:integer;' "for i:=0 to 2 do case i of -1,0,1:write(output,i);others:write(output,'o') end" 0 01o
does 'var c:char;' "for c:='a' to 'c' do case c of 'a','b':write(output,c) end" E8 ab
does 'var b:boolean;' "for b:=true downto false do case b of true:write(output,'t') end" E8 t
does 'var s:1..2;' "for s:=1 to 2 do case s of 1:write(output,s);others: end;case s of 1: end" E1 1
does '' "case 2 of 1:;2:write(output,'x');others:write(output,'y') end;case 3 of 1:;2: end" E8 x

# E9: a width below 1
does '' 'write(output,-7:4,12:1);write(output,1:0)' E9 '  -712'
does '' 'write(output,1:1);write(output,1:-1)' E9 1
does '' "write(output,'a':2);write(output,'a':0)" E9 ' a'
does '' "write(output,'abc':1,'abc':2,'abc':4,'it''s');write(output,'abc':0)" E9 "aab abcit's"
does '' "write(output,'abc':3);write(output,'abc':-3)" E9 abc
does '' 'writeln(output,1:1,2:2);writeln(output,1,2:0,3)' E9 '1 2\n1'
does '' 'write(output,1:1);write(output,1 div 0:0)' E5 1
texts "rewrite(f);write(f,'a':1);writeln(f,'b',1:0)" '' E9 ab ''

# E10: a file that is not read, or not written
while read -r doing written; do
    texts "reset(f);$doing;write(output,c,ord(b));rewrite(f);$doing" ab E10 '' "$written"
    texts "write(output,'n');$doing" ab E10 ab n
done <<'END'
b:=true;c:=f^ a1
b:=true;c:='g';get(f) g1
c:='l';b:=eoln(f) l0
b:=true;read(f,c) a1
b:=true;c:='r';readln(f) r1
END
while read -r doing held; do
    texts "rewrite(f);$doing;reset(f);write(output,'w');$doing" ab E10 "$held" w
    texts "write(output,'n');$doing" ab E10 ab n
done <<'END'
f^:='x';put(f) x
write(f,'x') x
write(f,12) 12
write(f,'it') it
writeln(f) \n
END
texts "write(output,'n');put(f)" ab E10 ab n
texts "reset(f);write(output,ord(eof(f)));put(f)" ab E10 ab 0
texts "rewrite(f);f^:='x';put(f);write(output,ord(eof(f)));reset(f);write(output,ord(eof(f)));f^:='y'" ab E10 x 10
texts "write(output,'n');b:=eof(f)" ab E10 ab n
bytes "reset(f);i:=f^;write(output,i);rewrite(f);i:=f^" ab E10 '' 97
bytes "reset(f);read(f,i);get(f);write(output,i);rewrite(f);read(f,i)" ab E10 '' 97
bytes "rewrite(f);write(f,97);reset(f);write(output,'w');write(f,98)" '' E10 a w
bytes "write(output,'n');get(f)" ab E10 ab n
bytes "write(output,'n');write(f,1)" ab E10 ab n
bytes "write(output,'n');f^:=1" ab E10 ab n
bytes "write(output,'n');b:=eof(f)" ab E10 ab n
reads ab "program t(input,output);begin write(output,input^);write(input,'c') end." E10 a
reads ab "program t(input,output);var c:char;begin write(output,ord(eof(output)));read(output,c) end." E10 1
reads ab "program t(input,output);begin reset(input);get(input);write(input^);rewrite(output);
write(ord(eoln(output))) end." E10 ''

# E11: the end of a file
texts 'reset(f);c:=f^;write(output,c);get(f);get(f);write(output,1);c:=f^' a E11 a a1
texts 'reset(f);get(f);get(f);write(output,ord(eof(f)));get(f)' a E11 a 1
texts 'reset(f);write(output,ord(eoln(f)));get(f);write(output,ord(eoln(f)));get(f);b:=eoln(f)' a E11 a 01
texts 'reset(f);read(f,c);write(output,c);read(f,c);write(output,c);read(f,c)' a E11 a 'a '
texts 'reset(f);readln(f);write(output,f^);readln(f);write(output,1);readln(f)' 'ab\ncd' E11 'ab\ncd' c1
texts 'reset(f);readln(f,c);write(output,c);readln(f,c);write(output,c);readln(f,c)' 'ab\ncd\n' E11 'ab\ncd\n' ac
texts 'reset(f);write(output,ord(eof(f)));c:=f^' '' E11 '' 1
texts 'reset(f);write(output,1);get(f)' '' E11 '' 1
texts 'reset(f);write(output,1);b:=eoln(f)' '' E11 '' 1
texts 'reset(f);write(output,1);read(f,c)' '' E11 '' 1
texts 'reset(f);write(output,1);readln(f)' '' E11 '' 1
bytes 'reset(f);i:=f^;write(output,i);get(f);i:=f^' a E11 a 97
bytes 'reset(f);get(f);write(output,1);get(f)' a E11 a 1
bytes 'reset(f);read(f,i);write(output,i);read(f,i)' a E11 a 97
reads 'ab\n' "program t(input,output);var c:char;begin read(c,c);write(c,ord(eoln));readln;write(ord(eof));
if eoln then end." E11 b11

# E12: put of an undefined buffer
texts "rewrite(f);f^:='a';put(f);write(output,1);put(f)" '' E12 a 1
texts 'rewrite(f);write(output,1);put(f)' ab E12 '' 1
texts "rewrite(f);f^:='a';rewrite(f);write(output,1);put(f)" ab E12 '' 1
texts "rewrite(f);f^:='a';reset(f);rewrite(f);write(output,1);put(f)" ab E12 '' 1
bytes 'rewrite(f);f^:=97;put(f);write(output,1);put(f)' '' E12 a 1
bytes 'rewrite(f);f^:=97;write(f,98);write(output,1);put(f)' '' E12 b 1
files 'file of char' "rewrite(f);write(f,'x');f^:='y';write(f,'z');put(f)" ab E12 xz ''

# E13: a function without a result where its body ends
does "function f(x:integer):integer;begin write(output,x);if x>0 then f:=x;write(output,'b') end;" \
    'write(output,f(1));write(output,f(0))' E13 1b10b
does "function f(x:integer):integer;begin if x>0 then f:=x else if f(1)=1 then write(output,'r') end;" \
    'write(output,f(2));write(output,f(0))' E13 2r
does 'function f(x:integer):integer;begin if x>0 then f:=x;uexit(x) end;' 'write(output,7);if f(0)=0 then' 0 7
does 'function f(x:integer):boolean;begin if x>0 then f:=true end;' 'write(output,ord(f(1)));if f(0) then' E13 1
does 'function f(x:integer):integer;begin f:=1;f:=x end;' 'write(output,f(2))' 0 2
does "function f:integer;label 5;begin f:=3;goto 5;f:=4;5:write(output,'e') end;" 'write(output,f)' 0 e3

# E14: uexit
does '' 'write(output,1);uexit(255);write(output,2)' 255 1
does '' 'write(output,1);uexit(256)' E14 1
does '' 'uexit(0)' 0 ''
does '' 'write(output,1);uexit(-1)' E14 1
does 'procedure p;begin uexit(3) end;' 'write(output,1);while true do p' 3 1

# what the sources leave open: a `for` looks at its limits, from the first to the last, before its variable
# changes, and steps before its next turn takes a step; so the value shows where the step would not be there
does 'var s:1..5;' 's:=3;for s:=0 to s+3 do write(output,s)' E2 ''
does 'var i,n:integer;' 'n:=2;for i:=1 to n do begin n:=9;write(output,i) end' 0 12
does 'var i:integer;' 'for i:=1 to 3 do begin write(output,i);i:=3 end' 0 1
steps 1 'program t(output);var i:integer;begin for i:=1 to 2 do i:=maxint end.' E4 ''
steps 1 'program t(output);var s:1..5;begin for s:=1 to 2 do s:=5 end.' E2 ''
steps 2 'program t(output);var i:integer;begin for i:=1 to 2 do for i:=3 to 3 do end.' E1 ''
steps 1 'program t(output);var i:integer;begin for i:=1 to 2 do for i:=3 to 3 do end.' going ''
steps 3 'program t(output);var i:integer;begin for i:=1 to 3 do begin write(output,i);i:=i+1 end end.' going 135
# the buffer: a text keeps it at `write`
texts "rewrite(f);f^:='b';write(f,'a');writeln(f);put(f)" '' 0 'a\nb' ''
texts "rewrite(f);f^:='q'" ab 0 '' ''
# the order of what is looked at
bytes 'write(output,1);f^:=256' a E2 a 1
bytes 'write(output,1);f^:=255' a E10 a 1
bytes 'write(output,1);write(f,256)' a E2 a 1
files 'file of 0..100' 'write(output,1);i:=f^' '\310' E10 '\310' 1
files 'file of 0..100' 'reset(f);write(output,1);i:=f^' '\310' E2 '\310' 1
files 'file of 0..100' 'reset(f);write(output,1);read(f,a[3])' '\310\007' E2 '\310\007' 1
files 'file of 0..100' 'reset(f);write(output,1);read(f,a[3])' '\007' E3 '\007' 1
files 'file of 0..100' 'reset(f);write(output,1);read(f,a[3])' '' E11 '' 1
texts "write(output,1);write(f,'a':0)" ab E10 ab 1
texts 'write(output,1);write(f,c)' ab E1 ab 1
texts 'write(output,1);write(f,1:1 div 0)' ab E5 ab 1
texts "write(output,1);f^:=c" ab E1 ab 1
# a goto to the last label takes no step
steps 0 "program t(output);label 9;begin write(output,'a');goto 9;write(output,'b');9:end." 0 a
steps 0 "program t(output);label 8,9;begin write(output,'a');goto 8;8:;9:end." going a
steps 1 "program t(output);label 8,9;begin write(output,'a');goto 8;write(output,'b');8:write(output,'c');9:end." 0 ac
# a constant, and an operator on one
does 'const c=-1;' 'write(output,-1 mod 3:1,c mod 3:2,-c:2)' 0 '-1 2 1'
does "const c=-5;q='x';" "write(output,c,-c:2,q,ord('a'),ord(true),maxint)" 0 '-5 5x9712147483647'
prun "program t(f,g);var f,g:text;begin reset(f);rewrite(g);read(f,g^);put(g);read(f,g^);put(g) end." ab 0 \
    'Halted with status 0.\n' ab ab t.p f out
steps 0 "program t(output);begin write(output,1:30) end." 0 "$(letters ' ' 29)1"
# a run goes on before an error behind it, and errs before a step behind it
fails='program t(output);function f(x:integer):integer;begin f:=x end;begin'
steps 0 "$fails write(output,f(1)+1 div 0) end." going ''
steps 1 "$fails write(output,f(1)+1 div 0) end." E5 ''
steps 0 "$fails write(output,1 div 0+f(1)) end." E5 ''
steps 0 "$fails write(output,f(1 div 0)) end." E5 ''
steps 0 "$fails write(output,2,f(1)) end." going 2

# steps, calls and gotos
steps 0 "program t(output);begin while false do;write(output,'w') end." going ''
steps 1 "program t(output);begin while false do;write(output,'w') end." 0 w
steps 0 "program t(output);begin repeat write(output,'r') until true end." going ''
steps 1 "program t(output);begin repeat write(output,'r') until true end." 0 r
steps 0 "program t(output);var i:integer;begin for i:=2 to 1 do;write(output,'n') end." 0 n
steps 0 "program t(output);procedure p;begin write(output,'p') end;begin p end." going ''
steps 1 "program t(output);procedure p;begin write(output,'p') end;begin p end." 0 p
counted='program t(output);label 5;var i:integer;begin i:=0;5:i:=i+1;write(output,i);if i<3 then goto 5 end.'
steps 0 "$counted" going 1
steps 1 "$counted" going 12
steps 2 "$counted" 0 123
calls='program t(output);type s=1..5;procedure p(x:s);begin write(output,x) end;begin p(1);p(6) end.'
steps 0 "$calls" going ''
steps 1 "$calls" E2 1
recursion="procedure q(n:integer);begin if n>1 then q(n-1) else write(output,'d') end;"
does "$recursion" 'q(999)' 0 d
does "$recursion" 'q(1000)' deep ''
steps 999 "program t(output);$recursion begin write(output,'a');q(1000) end." going a
steps 1000 "program t(output);$recursion begin write(output,'a');q(1000) end." deep a
steps 0 "$nothing" 0 old
does "procedure b;forward;procedure a;begin write(output,'a');b end;procedure b;begin write(output,'b') end;" a 0 ab
does "procedure p;label 7;begin write(output,'a');goto 7;write(output,'b');7: end;" "p;write(output,'c')" 0 ac
does 'label 5,6;var i:integer;' "i:=0;5:i:=i+1;write(output,i);if i<3 then goto 5;6:write(output,'z')" 0 123z
does 'label 5;var i:integer;' 'for i:=1 to 3 do begin repeat if i=2 then goto 5;write(output,i) until true end;5:' 0 1
does 'label 9;procedure p;label 9;begin goto 9;write(output,1);9:write(output,2) end;' 'p;9:' 0 2
does "label 9;procedure p;begin if true then goto 9 end;procedure q;begin p end;" "q;write(output,'b');9:" 1 ''

# variable arguments, and arrays and records as a whole
does 'var i:integer;a:array[1..2] of integer;procedure p(var x:integer);begin i:=2;x:=7 end;' \
    'i:=1;a[2]:=0;p(a[i]);write(output,a[1],a[2],i)' 0 702
does 'type s=array[1..2] of integer;var a:s;procedure p(var x:integer;b:s);begin x:=5;b[2]:=8;
write(output,a[1],b[1],b[2],x,a[2]) end;' 'a[1]:=1;a[2]:=2;p(a[1],a)' 0 51852
does 'type s=array[1..2] of integer;var a,c:s;procedure p(var x:integer;var b:s);begin x:=5;write(output,b[1]);b:=c;
write(output,x);x:=6;write(output,a[1],b[1],c[1]) end;' 'a[1]:=1;c[1]:=3;p(a[1],a)' 0 53663
does 'var a:array[1..2] of integer;' 'a[1]:=1;a[2]:=2;a:=a;write(output,a[1],a[2])' 0 12
does 'var a:array[1..2] of record x:integer;y:array[1..2] of char end;' \
    "a[1].x:=4;a[1].y[2]:='k';a[2]:=a[1];a[1].x:=5;write(output,a[2].x,a[2].y[2],a[1].x)" 0 4k5
does 'var i:integer;procedure p(var x,y:integer;z:integer);begin x:=x+1;y:=y*2;z:=z+x+y;
write(output,x:3,y:3,z:4) end;' \
    'i:=2;p(i,i,i);write(output,i:3)' 0 '  6  6  14  6'

# a program that is not lawful: the fault, and its line
fault '' 1 'syntax (F52)'
fault 'program t;begin ? end.' 1 'bad byte (F50)'
fault 'program t;begin\nend.\n"' 3 'bad byte (F50)'
fault 'program t;begin end.\n\200' 2 'bad byte (F50)'
fault 'program t;begin\nx:=2147483648 end.' 2 'bad token (F51)'
fault "program t;begin\nx:='a\n' end." 2 'bad token (F51)'
fault "program t;begin\nx:='' end." 2 'bad token (F51)'
fault "program t;begin\nx:='\t' end." 2 'bad token (F51)'
fault 'program t;\n{ begin\nend.' 2 'bad token (F51)'
fault "program\n$(letters a 256);begin end." 2 'bad token (F51)'
prun "program $(letters a 255);begin end." '' 0 'Halted with status 0.\n' '' old t.p
fault 'program t;begin end\n' 1 'syntax (F52)'
fault 'program t;begin end\n\n' 2 'syntax (F52)'
fault 'program t;begin end.\n.' 2 'syntax (F52)'
fault 'program t;begin if true then;\nelse end.' 2 'syntax (F52)'
fault 'program t;begin x\n=1 end.' 2 'syntax (F52)'
fault 'program t;begin x:=\n1.5 end.' 2 'left out: real numbers (F53)'
fault 'program t;begin x:=1\n/2 end.' 2 'left out: real numbers (F53)'
fault 'program t;var x:\nreal;begin end.' 2 'left out: real numbers (F53)'
fault 'program t;var x:record a:char;\ncase b of end;begin end.' 2 'left out: variant record (F53)'
fault 'program t;procedure p;\nprocedure q;begin end;begin end;begin end.' 2 'left out: nested routine (F53)'
fault 'program t;var x:\n(a,b);begin end.' 2 'left out: enumeration (F53)'
fault 'program t;var x:set of char;begin end.' 1 'left out: set (F53)'
fault 'program t;begin if x\nin y then end.' 2 'left out: set (F53)'
fault 'program t;var x:\n^char;begin end.' 2 'left out: pointer (F53)'
fault 'program t;begin x:=\nnil end.' 2 'left out: pointer (F53)'
fault 'program t;begin\nwith x do end.' 2 'left out: with (F53)'
fault 'program t;procedure p(\nfunction f:char);begin end;begin end.' 2 'left out: routine as parameter (F53)'
fault 'program t(input);var i:integer;begin read(\ni) end.' 2 'left out: reading a number (F53)'
fault "program t;var c:char;begin c:=\n'ab' end." 2 'left out: string outside write (F53)'
fault 'program t;procedure p;\nconst a=1;begin end;begin end.' 2 'left out: local constant or type (F53)'
fault "program t;$(printf 'begin %.0s' {1..250})\nbegin" 2 'left out: nesting (F53)'
prun "program t;$(printf 'begin %.0s' {1..250})$(printf 'end %.0s' {1..250})." '' 0 'Halted with status 0.\n' '' old t.p
fault 'program t;begin\nx:=1 end.' 2 'unknown name (F54)'
fault 'program t(\nf);begin end.' 2 'unknown name (F54)'
fault 'program t;procedure p;forward;begin\nend.' 2 'unknown name (F54)'
fault 'program t;var a:record b:char end;begin a.\nc:=1 end.' 2 'unknown name (F54)'
fault 'program t;var a:char;\na:char;begin end.' 2 'duplicate (F55)'
fault 'program t;var\ninput:char;begin end.' 2 'duplicate (F55)'
fault 'program t;begin case 1 of 1:;\n1: end end.' 2 'duplicate (F55)'
fault 'program t;type p=array[1..2] of char;var a:p;b:array[1..2] of char;begin a:=\nb end.' 2 'type (F56)'
fault 'program t;var i:integer;begin i:=\ntrue end.' 2 'type (F56)'
fault 'program t(output);begin write(\ntrue) end.' 2 'type (F56)'
fault 'program t;procedure p;begin end;begin p(\n1) end.' 2 'type (F56)'
fault 'program t;var a:array[3..1] of char;begin end.' 1 'constant out of range (F57)'
fault 'program t;label\n10000;begin end.' 2 'constant out of range (F57)'
fault 'program t;begin goto\n7 end.' 2 'label (F58)'
fault 'program t;label 5;begin\nend.' 2 'label (F58)'
fault 'program t;label 5;begin goto\n5;begin 5: end end.' 2 'goto (F59)'
fault 'program t;var a:array[1..4194305] of\nchar;begin end.' 2 'too large (F60)'
fault 'program t;var a:array[\ninteger] of char;begin end.' 2 'too large (F60)'
fault 'program t;procedure p;var a:array[1..4097] of\nchar;begin end;begin end.' 2 'too large (F60)'
fault 'program t;var f:\ntext;begin end.' 2 'file rule (F61)'
fault 'program t;begin\nwriteln end.' 2 'file rule (F61)'
fault 'program t(\nf);var f:file of integer;begin end.' 2 'file rule (F61)'
fault 'program t(output,f,g,h);var f,g,h:text;begin end.' 1 'file rule (F61)'
fault 'program t;function f:integer;begin\nend;begin end.' 2 'result never assigned (F62)'
printf 'program t;begin\n' >u && words 1 '! u:1: syntax (F52)\n' prun u out
{ printf 'program t;begin end.' && head -c 16777196 /dev/zero | tr '\0' ' '; } >big.p
words 0 'Halted with status 0.\n' prun big.p
printf ' ' >>big.p
words 1 '! big.p:0: limit passed: file bytes (F28)\n' prun big.p

# The web that lists pools, tangled and run, writes what `pooltype` prints.
lists() { # POOL
    printf "$1" >a.pool
    "$web2c" pooltype a.pool >listed
    echo 'Halted with status 0.' >>listed
    "$web2c" prun pl.p a.pool :std >console 2>errors
    judge "the listing of $1 by a web" [ "$? $(cmp console listed 2>&1)$(cat errors)" = '0 ' ]
}
cp "$tests/pl.web" "$tests/pl.ch" . && rm -f pl.p pl.pool
words 0 '' tangle pl.web pl.ch
judge 'the tangled web that lists pools' grep -q 'program listpool(pool,output);' pl.p
judge 'no pool of the web that lists pools' [ ! -e pl.pool ]
lists '02ab\n*000000000\n'
lists '*123456789\n'
lists '11hello world\n07a "b" c\n00\n03{|}\n*000000000\n'

# The sample counts the words of two lines, as its first section says.
cp "${tests%/*}/examples/count.web" .
words 0 '' tangle count.web
printf 'to be or not to be\nthat is the question\n' >a.txt
"$web2c" prun count.p count.pool :std :std <a.txt >console 2>errors
counted='lines: 2 words: 10 characters: 38 length 2: ****** (6) length 3: ** (2) length 4: * (1) length 8: * (1)'
judge 'the words of two lines' [ "$? $(tr '\n' ' ' <console)$(cat errors)" = "0 $counted Halted with status 0. " ]

echo "$passed passed, $failed failed"
[ $failed = 0 ]
