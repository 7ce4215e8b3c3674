program merge(output, first, second, both);
{ Merges two texts of words in order, each in a line, into a third one, which is then read again. }
const longest = 20;
type
  word = record
    length: integer;
    letters: array [1..longest] of char
  end;
var
  first, second, both: text;
  one, other: word;
  has_one, has_other, takes_one: boolean;
  lines, width: integer;

procedure next(var from: text; var into: word; var has: boolean);
begin
  into.length := 0;
  has := not eof(from);
  if has then
  begin
    while not eoln(from) do
    begin
      if into.length < longest then
      begin
        into.length := into.length + 1;
        into.letters[into.length] := from^
      end;
      get(from)
    end;
    readln(from)
  end
end;

function comes_first(var a, b: word): boolean;
var
  place: integer;
  decided: boolean;
begin
  place := 1;
  decided := false;
  comes_first := a.length <= b.length;
  while not decided and (place <= a.length) and (place <= b.length) do
  begin
    if a.letters[place] <> b.letters[place] then
    begin
      comes_first := a.letters[place] < b.letters[place];
      decided := true
    end;
    place := place + 1
  end
end;

procedure put_word(var onto: text; a: word; mark: char);
var place: integer;
begin
  for place := 1 to a.length do write(onto, a.letters[place]);
  writeln(onto, mark)
end;

begin
  reset(first);
  reset(second);
  rewrite(both);
  next(first, one, has_one);
  next(second, other, has_other);
  while has_one or has_other do
  begin
    takes_one := has_one;
    if has_one and has_other then takes_one := comes_first(one, other);
    if takes_one then
    begin
      put_word(both, one, '<');
      next(first, one, has_one)
    end
    else
    begin
      put_word(both, other, '>');
      next(second, other, has_other)
    end
  end;
  reset(both);
  lines := 0;
  while not eof(both) do
  begin
    lines := lines + 1;
    width := 0;
    write(output, lines:3, ' ');
    while not eoln(both) do
    begin
      write(output, both^);
      get(both);
      width := width + 1
    end;
    readln(both);
    writeln(output, width - 1:longest - width)
  end
end.
