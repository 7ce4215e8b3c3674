program words(input, output);
{ Counts the words of a text in a table that is kept in order. }
const
  longest = 12;
  most = 100;
type
  word = record
    length: 0..longest;
    letters: array [1..longest] of char
  end;
  entry = record
    name: word;
    times: integer
  end;
var
  table: array [1..most] of entry;
  count, lines, all, n: integer;
  found: word;

function is_letter(c: char): boolean;
begin
  is_letter := ((c >= 'a') and (c <= 'z')) or ((c >= 'A') and (c <= 'Z'))
end;

function small(c: char): char;
begin
  if (c >= 'A') and (c <= 'Z') then small := chr(ord(c) + 32) else small := c
end;

procedure read_word(var into: word);
var c: char;
begin
  into.length := 0;
  while is_letter(input^) do
  begin
    read(input, c);
    if into.length < longest then
    begin
      into.length := into.length + 1;
      into.letters[into.length] := small(c)
    end
  end
end;

function compared(var a, b: word): integer;
var
  place, answer: integer;
begin
  place := 1;
  answer := 0;
  while (answer = 0) and (place <= a.length) and (place <= b.length) do
  begin
    answer := ord(a.letters[place]) - ord(b.letters[place]);
    place := place + 1
  end;
  if answer = 0 then answer := a.length - b.length;
  compared := answer
end;

procedure enter(name: word);
var
  place, moved: integer;
  goes_on: boolean;
begin
  place := 1;
  goes_on := true;
  while goes_on do
    if place > count then goes_on := false
    else if compared(table[place].name, name) < 0 then place := place + 1
    else goes_on := false;
  goes_on := place <= count;
  if goes_on then goes_on := compared(table[place].name, name) = 0;
  if goes_on then table[place].times := table[place].times + 1
  else
  begin
    for moved := count downto place do table[moved + 1] := table[moved];
    table[place].name := name;
    table[place].times := 1;
    count := count + 1
  end
end;

procedure show(of_table: entry);
var place: integer;
begin
  for place := 1 to of_table.name.length do write(output, of_table.name.letters[place]);
  writeln(output, ' ':longest + 1 - of_table.name.length, of_table.times:3)
end;

begin
  count := 0;
  lines := 0;
  all := 0;
  while not eof(input) do
    if eoln(input) then
    begin
      lines := lines + 1;
      readln(input)
    end
    else if is_letter(input^) then
    begin
      read_word(found);
      enter(found);
      all := all + 1
    end
    else get(input);
  for n := 1 to count do show(table[n]);
  writeln(output, lines:1, ' lines, ', all:1, ' words, ', count:1, ' of them different')
end.
