This change file adapts count.web: digits and hyphens are letters of words, the
answers are in German, and the bars are shorter.

@x
@d is_letter(#)==(((#>='a')and(#<='z'))or((#>='A')and(#<='Z'))or(#=''''))
@y
@d is_letter(#)==(((#>='a')and(#<='z'))or((#>='A')and(#<='Z'))or
  ((#>='0')and(#<='9'))or(#='-')or(#=''''))
@z

@x
print_count("lines: ",lines);
print_count("words: ",words);
print_count("characters: ",characters);
@y
print_count("Zeilen: ",lines);
print_count("Woerter: ",words);
print_count("Zeichen: ",characters);
@z

@x
@d bar=40
@y
@d bar=20
@z

@x
begin print_string("length "); print(k:1); print_string(": ");
@y
begin print_string("Laenge "); print(k:1); print_string(": ");
@z
