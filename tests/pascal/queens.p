program queens(output);
{ All ways to put eight queens on a board so that none threatens another. }
var
  column: array [1..8] of integer;
  taken: array [1..8] of boolean;
  rising: array [2..16] of boolean;
  falling: array [-7..7] of boolean;
  ways, n: integer;

procedure show;
var row, place: integer;
begin
  for row := 1 to 8 do
  begin
    for place := 1 to 8 do
      if column[row] = place then write(output, ' Q') else write(output, ' .');
    writeln(output)
  end;
  writeln(output)
end;

procedure mark(row, place: integer; is_taken: boolean);
begin
  taken[place] := is_taken;
  rising[row + place] := is_taken;
  falling[row - place] := is_taken
end;

procedure put_from(row: integer);
var place: integer;
begin
  if row > 8 then
  begin
    ways := ways + 1;
    if (ways = 1) or (ways = 92) then show;
    for place := 1 to 8 do write(output, column[place]:1);
    if ways mod 8 = 0 then writeln(output) else write(output, ' ')
  end
  else
    for place := 1 to 8 do
      if not (taken[place] or rising[row + place] or falling[row - place]) then
      begin
        column[row] := place;
        mark(row, place, true);
        put_from(row + 1);
        mark(row, place, false)
      end
end;

begin
  for n := 1 to 8 do taken[n] := false;
  for n := 2 to 16 do rising[n] := false;
  for n := -7 to 7 do falling[n] := false;
  ways := 0;
  put_from(1);
  writeln(output);
  writeln(output, ways:1, ' ways')
end.
