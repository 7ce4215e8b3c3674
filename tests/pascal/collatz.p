program collatz(output);
{ How many turns numbers take to come to one, with the longest way and a picture of how often each length comes. }
const
  last = 600;
  wide = 50;
var
  turns: array [1..last] of integer;
  often: array [0..29] of integer;
  n, longest, highest, most: integer;

function next(n: integer): integer;
begin
  if odd(n) then next := 3 * n + 1 else next := n div 2
end;

function turns_of(n: integer): integer;
var count: integer;
begin
  count := 0;
  repeat
    if n <> 1 then
    begin
      n := next(n);
      count := count + 1;
      if n > highest then highest := n
    end
  until n = 1;
  turns_of := count
end;

procedure way(n: integer);
var column: integer;
begin
  column := 0;
  while n <> 1 do
  begin
    write(output, n:7);
    column := column + 1;
    if column mod 10 = 0 then writeln(output);
    n := next(n)
  end;
  writeln(output, n:7)
end;

procedure bar(length: integer);
begin
  if length > 0 then
  begin
    write(output, '#');
    bar(length - 1)
  end
end;

begin
  highest := 1;
  longest := 1;
  for n := 0 to 29 do often[n] := 0;
  for n := 1 to last do
  begin
    turns[n] := turns_of(n);
    if turns[n] > turns[longest] then longest := n;
    often[turns[n] div 5] := often[turns[n] div 5] + 1
  end;
  writeln(output, 'longest: ', longest:1, ', ', turns[longest]:1, ' turns, highest ', highest:1);
  way(longest);
  most := 1;
  for n := 0 to 29 do
    if often[n] > most then most := often[n];
  for n := 0 to 29 do
    if often[n] > 0 then
    begin
      write(output, 5 * n:4, often[n]:5, ' ');
      bar(often[n] * wide div most);
      writeln(output)
    end
end.
