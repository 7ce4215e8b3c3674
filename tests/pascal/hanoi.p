program hanoi(output);
{ The tower of Hanoi, with the pegs drawn behind each move. }
const discs = 5;
type
  peg = record
    height: integer;
    disc: array [1..discs] of 1..discs
  end;
var
  pegs: array ['a'..'c'] of peg;
  moves, n: integer;
  letter: char;

procedure push(var onto: peg; disc: integer);
begin
  onto.height := onto.height + 1;
  onto.disc[onto.height] := disc
end;

function top(from: peg): integer;
begin
  top := from.disc[from.height]
end;

procedure draw;
var
  place: integer;
  name: char;
begin
  write(output, moves:3, ':');
  for name := 'a' to 'c' do
  begin
    write(output, ' ', name, '=');
    for place := 1 to discs do
      if place <= pegs[name].height then write(output, pegs[name].disc[place]:1) else write(output, '-')
  end;
  writeln(output)
end;

procedure move(count: integer; from, onto, over: char);
begin
  if count > 0 then
  begin
    move(count - 1, from, over, onto);
    push(pegs[onto], top(pegs[from]));
    pegs[from].height := pegs[from].height - 1;
    moves := moves + 1;
    draw;
    move(count - 1, over, onto, from)
  end
end;

begin
  for letter := 'a' to 'c' do pegs[letter].height := 0;
  for n := discs downto 1 do push(pegs['a'], n);
  moves := 0;
  draw;
  move(discs, 'a', 'c', 'b');
  writeln(output, 'moves: ', moves:1)
end.
