program matrix(output);
{ Products and powers of small matrices, each passed and assigned whole. }
const size = 4;
type
  row = array [1..size] of integer;
  square = array [1..size] of row;
var
  steps, power, one: square;
  n, m: integer;

procedure multiply(a, b: square; var product: square);
var i, j, k, sum: integer;
begin
  for i := 1 to size do
    for j := 1 to size do
    begin
      sum := 0;
      for k := 1 to size do sum := sum + a[i][k] * b[k, j];
      product[i, j] := sum
    end
end;

procedure turn(var a: square);
var
  b: square;
  i, j: integer;
begin
  b := a;
  for i := 1 to size do
    for j := 1 to size do a[j, i] := b[i, j]
end;

function trace(var a: square): integer;
var i, sum: integer;
begin
  sum := 0;
  for i := 1 to size do sum := sum + a[i, i];
  trace := sum
end;

procedure show(a: square);
var i, j: integer;
begin
  for i := 1 to size do
  begin
    for j := 1 to size do write(output, a[i, j]:10);
    writeln(output)
  end;
  writeln(output, 'trace', trace(a):8)
end;

begin
  for n := 1 to size do
    for m := 1 to size do
    begin
      one[n, m] := ord(n = m);
      steps[n, m] := (n * m) mod 5 - 2
    end;
  power := one;
  for n := 1 to 6 do
  begin
    multiply(power, steps, power);
    writeln(output, 'power ', n:1);
    show(power)
  end;
  turn(power);
  writeln(output, 'turned');
  show(power);
  power[1] := steps[2];
  steps[2] := one[3];
  writeln(output, 'with another row');
  show(power);
  show(steps)
end.
