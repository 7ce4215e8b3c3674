program calc(input, output);
{ A line with a sum of products in parentheses is worked out by descent; what does not fit is shown by its place. }
var
  place, line: integer;
  is_bad: boolean;

function sum: integer; forward;

procedure pass;
begin
  get(input);
  place := place + 1
end;

procedure skip;
var goes_on: boolean;
begin
  goes_on := true;
  while goes_on do
    if eoln(input) then goes_on := false
    else if input^ = ' ' then pass
    else goes_on := false
end;

function is_next(c: char): boolean;
begin
  skip;
  if eoln(input) then is_next := false else is_next := input^ = c
end;

procedure bad;
begin
  if not is_bad then write(output, 'bad at ', place:1, ', so far ');
  is_bad := true
end;

function number: integer;
var
  n: integer;
  goes_on: boolean;
begin
  n := 0;
  goes_on := true;
  while goes_on do
    if eoln(input) then goes_on := false
    else if (input^ >= '0') and (input^ <= '9') then
    begin
      n := 10 * n + (ord(input^) - ord('0'));
      pass
    end
    else goes_on := false;
  number := n
end;

function factor: integer;
begin
  skip;
  if eoln(input) then
  begin
    bad;
    factor := 0
  end
  else if input^ = '(' then
  begin
    pass;
    factor := sum;
    if is_next(')') then pass else bad
  end
  else if input^ = '-' then
  begin
    pass;
    factor := -factor
  end
  else if (input^ >= '0') and (input^ <= '9') then factor := number
  else
  begin
    bad;
    factor := 0;
    pass
  end
end;

function product: integer;
var so_far, next: integer;
begin
  so_far := factor;
  while is_next('*') or is_next('/') do
    if input^ = '*' then
    begin
      pass;
      so_far := so_far * factor
    end
    else
    begin
      pass;
      next := factor;
      if next = 0 then bad else so_far := so_far div next
    end;
  product := so_far
end;

function sum;
var so_far: integer;
begin
  so_far := product;
  while is_next('+') or is_next('-') do
    if input^ = '+' then
    begin
      pass;
      so_far := so_far + product
    end
    else
    begin
      pass;
      so_far := so_far - product
    end;
  sum := so_far
end;

begin
  line := 0;
  while not eof(input) do
  begin
    line := line + 1;
    place := 1;
    is_bad := false;
    write(output, line:2, ': ');
    writeln(output, sum:1);
    readln(input)
  end
end.
