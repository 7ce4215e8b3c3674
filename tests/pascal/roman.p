program roman(input, output);
{ Reads Roman numbers, writes them in decimal and in their shortest form, and each line backward below. }
var
  value: array [char] of integer;
  c: char;
  n, lines: integer;

procedure backward;
var c: char;
begin
  if not eoln(input) then
  begin
    read(input, c);
    backward;
    write(output, c)
  end
end;

procedure write_part(var n: integer; from: integer; one, two: char);
begin
  while n >= from do
  begin
    write(output, one);
    if two <> ' ' then write(output, two);
    n := n - from
  end
end;

procedure write_roman(n: integer);
begin
  write_part(n, 1000, 'M', ' ');
  write_part(n, 900, 'C', 'M');
  write_part(n, 500, 'D', ' ');
  write_part(n, 400, 'C', 'D');
  write_part(n, 100, 'C', ' ');
  write_part(n, 90, 'X', 'C');
  write_part(n, 50, 'L', ' ');
  write_part(n, 40, 'X', 'L');
  write_part(n, 10, 'X', ' ');
  write_part(n, 9, 'I', 'X');
  write_part(n, 5, 'V', ' ');
  write_part(n, 4, 'I', 'V');
  write_part(n, 1, 'I', ' ')
end;

function read_roman: integer;
var sum, before, now: integer;
begin
  sum := 0;
  before := 0;
  while value[input^] > 0 do
  begin
    now := value[input^];
    sum := sum + now;
    if before < now then sum := sum - 2 * before;
    before := now;
    get(input)
  end;
  read_roman := sum
end;

begin
  for n := 0 to 255 do value[chr(n)] := 0;
  value['I'] := 1;
  value['V'] := 5;
  value['X'] := 10;
  value['L'] := 50;
  value['C'] := 100;
  value['D'] := 500;
  value['M'] := 1000;
  lines := 0;
  while not eof(input) do
  begin
    lines := lines + 1;
    n := read_roman;
    write(output, lines:2, n:6, ' ');
    write_roman(n);
    write(output, ' [');
    backward;
    writeln(output, ']');
    readln(input)
  end;
  for n := 1 to 20 do
  begin
    write(output, 97 * n:6, ' ');
    write_roman(97 * n);
    if n mod 4 = 0 then writeln(output)
  end
end.
