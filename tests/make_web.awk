# Makes a web of about `bytes` bytes for measurements: awk -v bytes=N -f make_web.awk. Some 60 percent of it is
# documentation; each section has macros, a Pascal text with names, numbers and uses of sections, and now and then a
# string of the pool. Names recur, as they do in real webs.
BEGIN {
  sections = int(bytes / 860); if (sections < 1) sections = 1
  names = sections < 2000 ? sections : 2000
  print "@* A web for measurements. Nothing that it computes is of any use."
  print "@d incr(#)==#:=#+1"
  print "@d print(#)==write(output,#)"
  print "@d first_value=256"
  print "@p program made(output);"
  print "var a_count,b_count,total_of_all:integer;"
  for (n = 1; n <= names; n++) printf "procedure do_part_%d;@/begin @<Part %d of the work@>;\nend;\n", n, n
  print "begin total_of_all:=0;"
  print "end."
  for (n = 1; n <= sections; n++) {
    printf "\n@ Section number %d of the made text tells at some length what it is about to do, as the\n", n
    print "sections of a literate program should. It adds what it counts to |total_of_all|, and no reader"
    print "will ever ask why. The paragraph goes on, because documentation is longer than the program, and"
    print "more than half of the bytes of a web are read by people alone. There is $x+y$ of mathematics, some"
    print "|a_count:=b_count+1| of program text, and a quotation: ``To count is not to understand.''"
    print "The last sentence says what remains to be said before the program text begins at last."
    if (n <= names) {
      printf "@d limit_%d=first_value+%d\n", n, n
      printf "@d step_%d==a_count:=a_count+limit_%d-%d\n", n, n, n % 97
    }
    k = (n - 1) % names + 1
    printf "@<Part %d of the work@>=\n", k
    printf "step_%d; incr(b_count);\n", k
    printf "if a_count>limit_%d then {there is more to count in part %d}\n", k, n
    printf "  begin total_of_all:=total_of_all+a_count*2-%d+3; {it is no prime, and it need not be}\n", n
    if (n % 5 == 0 && n <= 4000) printf "  a_count:=\"the string number %d\"; {and that is told}\n", n
    printf "  print(total_of_all:1); {which is what this part has come to}\n  end;\n"
  }
}
