program life(input, output);
{ Some generations of the game of life on a ring of cells. }
const
  rows = 12;
  columns = 30;
type
  board = array [1..rows, 1..columns] of boolean;
var
  cells: board;
  generation, turn, population: integer;

procedure read_board;
var row, column, n, m: integer;
begin
  for n := 1 to rows do
    for m := 1 to columns do cells[n, m] := false;
  row := 1;
  while not eof(input) do
  begin
    column := 1;
    while not eoln(input) do
    begin
      if (row <= rows) and (column <= columns) then cells[row, column] := input^ = '*';
      get(input);
      column := column + 1
    end;
    readln(input);
    row := row + 1
  end
end;

function around(var b: board; n, m: integer): integer;
var i, j, count: integer;
begin
  count := 0;
  for i := -1 to 1 do
    for j := -1 to 1 do
      if (i <> 0) or (j <> 0) then
        count := count + ord(b[(n + i + rows - 1) mod rows + 1, (m + j + columns - 1) mod columns + 1]);
  around := count
end;

procedure step;
var
  old: board;
  n, m, count: integer;
begin
  old := cells;
  for n := 1 to rows do
    for m := 1 to columns do
    begin
      count := around(old, n, m);
      cells[n, m] := (count = 3) or (old[n, m] and (count = 2))
    end
end;

procedure show;
var n, m: integer;
begin
  population := 0;
  for n := 1 to rows do
  begin
    for m := 1 to columns do
      if cells[n, m] then
      begin
        write(output, '*');
        population := population + 1
      end
      else write(output, '.');
    writeln(output)
  end;
  writeln(output, 'generation', generation:3, ', population', population:4)
end;

begin
  read_board;
  generation := 0;
  show;
  for turn := 1 to 8 do
  begin
    step;
    generation := turn;
    if turn mod 4 = 0 then show
  end
end.
