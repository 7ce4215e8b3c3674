program letters(input, output);
{ Sorts the letters of each line by insertion. }
const most = 80;
type line = array [1..most] of char;
var
  text_line: line;
  length, lines: integer;

procedure read_line(var into: line; var count: integer);
var c: char;
begin
  count := 0;
  while not eoln(input) do
  begin
    read(input, c);
    if (c <> ' ') and (count < most) then
    begin
      count := count + 1;
      into[count] := c
    end
  end;
  readln(input)
end;

procedure sort(var letters: line; count: integer);
var
  place, hole: integer;
  letter: char;
  goes_on: boolean;
begin
  for place := 2 to count do
  begin
    letter := letters[place];
    hole := place;
    goes_on := true;
    while goes_on and (hole > 1) do
      if letters[hole - 1] > letter then
      begin
        letters[hole] := letters[hole - 1];
        hole := hole - 1
      end
      else goes_on := false;
    letters[hole] := letter
  end
end;

procedure write_line(letters: line; count: integer);
var place: integer;
begin
  for place := 1 to count do write(output, letters[place]);
  writeln(output)
end;

begin
  lines := 0;
  while not eof(input) do
  begin
    read_line(text_line, length);
    sort(text_line, length);
    write_line(text_line, length);
    lines := lines + 1
  end;
  writeln(output, lines:1, ' lines')
end.
