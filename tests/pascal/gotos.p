program gotos(input, output);
{ Finds names, numbers and comments in a text by gotos, and stops at a bad char by one to the end. }
label 1, 2, 3, 9;
var
  c: char;
  names, numbers, comments, value: integer;

procedure stop;
label 5, 6;
var left: integer;
begin
  left := 3;
  5: if left = 0 then goto 6;
  write(output, '!');
  left := left - 1;
  goto 5;
  6: writeln(output);
  writeln(output, 'bad char ', ord(input^):1, ' behind ', names:1, ' names');
  goto 9
end;

procedure number(var value: integer);
begin
  value := 0;
  while (input^ >= '0') and (input^ <= '9') do
  begin
    value := 10 * value + ord(input^) - ord('0');
    get(input)
  end
end;

begin
  names := 0;
  numbers := 0;
  comments := 0;
  1: if eof(input) then goto 3;
  c := input^;
  if c = ' ' then
  begin
    get(input);
    goto 1
  end;
  if (c >= 'a') and (c <= 'z') then
  begin
    names := names + 1;
    repeat
      write(output, input^);
      get(input)
    until (input^ < 'a') or (input^ > 'z');
    writeln(output);
    goto 1
  end;
  if (c >= '0') and (c <= '9') then
  begin
    numbers := numbers + 1;
    number(value);
    writeln(output, value:8);
    goto 1
  end;
  if c = '(' then
  begin
    comments := comments + 1;
    while true do
    begin
      get(input);
      if eof(input) then goto 3;
      if input^ = ')' then goto 2
    end
  end;
  if c = '?' then stop;
  get(input);
  goto 1;
  2: get(input);
  goto 1;
  3: writeln(output, names:1, ' names, ', numbers:1, ' numbers, ', comments:1, ' comments');
  if comments > 1 then stop;
  9:
end.
