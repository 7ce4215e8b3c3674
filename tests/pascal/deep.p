program deep(output);
{ 999 calls are active at once, each inside twelve statements and expressions, one in another. }
var a: array [1..2] of integer;

function f(n: integer): integer;
var i: integer;
begin
  if n = 999 then f := 1
  else
    case n mod 2 of
      0, 1:
        begin
          i := n;
          repeat
            i := i + 1;
            if odd(i) or (i > n) then f := 1 + abs(-(-f(i)))
          until i > n
        end
    end
end;

begin
  a[1] := 999;
  a[2] := f(1);
  if a[1] = a[2] then writeln(output, 'came back from ', a[2]:1)
end.
