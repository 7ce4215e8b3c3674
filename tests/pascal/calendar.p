program calendar(output);
{ Two years of calendars, three months beside one another. }
type
  month = 1..12;
  day = 0..6;
var
  year, row, n: integer;
  first: array [month] of day;
  shown: array [month] of integer;

function is_leap(year: integer): boolean;
begin
  is_leap := (year mod 4 = 0) and ((year mod 100 <> 0) or (year mod 400 = 0))
end;

function days(m: month; year: integer): integer;
begin
  case m of
    1, 3, 5, 7, 8, 10, 12: days := 31;
    4, 6, 9, 11: days := 30;
    2: if is_leap(year) then days := 29 else days := 28
  end
end;

function weekday(year: integer): day;
var before: integer;
begin
  before := year - 1;
  weekday := (before * 365 + before div 4 - before div 100 + before div 400) mod 7
end;

procedure name(m: month);
begin
  case m of
    1: write(output, 'January':21);
    2: write(output, 'February':21);
    3: write(output, 'March':21);
    4: write(output, 'April':21);
    5: write(output, 'May':21);
    6: write(output, 'June':21);
    7: write(output, 'July':21);
    8: write(output, 'August':21);
    9: write(output, 'September':21);
    10: write(output, 'October':21);
    11: write(output, 'November':21);
    12: write(output, 'December':21)
  end;
  write(output, ' ')
end;

procedure week(m: month; year: integer);
var d: day;
begin
  for d := 0 to 6 do
  begin
    if (shown[m] = 0) and (d = first[m]) then shown[m] := 1;
    if (shown[m] > 0) and (shown[m] <= days(m, year)) then
    begin
      write(output, shown[m]:3);
      shown[m] := shown[m] + 1
    end
    else write(output, ' ':3)
  end;
  write(output, ' ')
end;

procedure start(year: integer);
var m: month;
begin
  first[1] := weekday(year);
  for m := 1 to 12 do
  begin
    shown[m] := 0;
    if m < 12 then first[m + 1] := (first[m] + days(m, year)) mod 7
  end
end;

begin
  year := 1900;
  while year <= 2000 do
  begin
    writeln(output, year:34);
    start(year);
    for row := 0 to 3 do
    begin
      for n := 1 to 3 do name(3 * row + n);
      writeln(output);
      for n := 1 to 3 do write(output, ' Mo Tu We Th Fr Sa Su ');
      writeln(output);
      while (shown[3 * row + 1] <= days(3 * row + 1, year)) or (shown[3 * row + 2] <= days(3 * row + 2, year))
        or (shown[3 * row + 3] <= days(3 * row + 3, year)) do
      begin
        for n := 1 to 3 do week(3 * row + n, year);
        writeln(output)
      end
    end;
    year := year + 100
  end
end.
