# Makes a Pascal program in which a routine calls itself inside so many statements of a kind, one in another, until so
# many calls are active: awk -v forms=247 -v kind=for -v calls=999 -f make_deep.awk. The kinds are `for`, `repeat`,
# `begin`, `if` and `index`. It writes `done` where the machine's stack is large enough.
BEGIN {
    print "program deepest(output);"
    print "var a: array [1..1] of 1..1;"
    for (n = 1; n <= forms; n++) {
        names = names (n > 1 ? ", " : "") "i" n
        if (kind == "for") { front = front "for i" n " := 1 to 1 do\n"; back = "" }
        if (kind == "repeat") { front = front "repeat\n"; back = back "until true\n" }
        if (kind == "begin") { front = front "begin\n"; back = back "end\n" }
        if (kind == "if") { front = front "if true then\n"; back = "" }
        if (kind == "index") { front = front "a["; back = back "]" }
    }
    print "function f(n: integer): integer;\nvar " names ": integer;\nbegin\nf := 1;\nif n < " calls " then"
    if (kind == "index") print "f := " front "f(n + 1)" back
    else print front "f := f(n + 1)\n" back
    print "end;\nbegin\na[1] := 1;\nif f(1) = 1 then writeln(output, 'done')\nend."
}
