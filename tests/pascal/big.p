program big(output);
{ Factorials and powers of two as long numbers, a digit in each place, the last one first. }
const places = 120;
type
  digit = 0..9;
  long = record
    used: 1..places;
    digits: array [1..places] of digit
  end;
var
  product, sum, before, between: long;
  n: integer;

procedure become(var a: long; digit: integer);
begin
  a.used := 1;
  a.digits[1] := digit
end;

procedure times(var a: long; factor: integer);
var place, carry: integer;
begin
  carry := 0;
  for place := 1 to a.used do
  begin
    carry := carry + a.digits[place] * factor;
    a.digits[place] := carry mod 10;
    carry := carry div 10
  end;
  while carry > 0 do
  begin
    a.used := a.used + 1;
    a.digits[a.used] := carry mod 10;
    carry := carry div 10
  end
end;

procedure add(a, b: long; var sum: long);
var place, carry: integer;
begin
  while a.used < b.used do
  begin
    a.used := a.used + 1;
    a.digits[a.used] := 0
  end;
  carry := 0;
  for place := 1 to a.used do
  begin
    carry := carry + a.digits[place];
    if place <= b.used then carry := carry + b.digits[place];
    a.digits[place] := carry mod 10;
    carry := carry div 10
  end;
  if carry > 0 then
  begin
    a.used := a.used + 1;
    a.digits[a.used] := carry
  end;
  sum := a
end;

procedure show(a: long);
var place: integer;
begin
  for place := a.used downto 1 do
  begin
    write(output, a.digits[place]:1);
    if (place mod 3 = 1) and (place > 1) then write(output, ' ')
  end;
  writeln(output)
end;

begin
  become(product, 1);
  for n := 1 to 60 do
  begin
    times(product, n);
    if n mod 10 = 0 then
    begin
      write(output, n:3, '! = ');
      show(product)
    end
  end;
  become(before, 0);
  become(sum, 1);
  for n := 2 to 150 do
  begin
    add(before, sum, between);
    before := sum;
    sum := between
  end;
  write(output, 'Fibonacci 150 = ');
  show(sum);
  become(product, 1);
  for n := 1 to 100 do times(product, 2);
  write(output, '2 to 100 = ');
  show(product);
  add(product, product, product);
  write(output, 'twice that = ');
  show(product)
end.
