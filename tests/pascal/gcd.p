program gcd(output);
{ The greatest common divisor with its two factors, and what is left by division of numbers below zero. }
var a, b, factor_a, factor_b, divisor: integer;

procedure extended(a, b: integer; var divisor, factor_a, factor_b: integer);
var below, above: integer;
begin
  if b = 0 then
  begin
    divisor := a;
    factor_a := 1;
    factor_b := 0
  end
  else
  begin
    extended(b, a mod b, divisor, below, above);
    factor_a := above;
    factor_b := below - a div b * above
  end
end;

function power(base, times, modulus: integer): integer;
var result: integer;
begin
  result := 1;
  base := base mod modulus;
  while times > 0 do
  begin
    if odd(times) then result := result * base mod modulus;
    base := base * base mod modulus;
    times := times div 2
  end;
  power := result
end;

begin
  a := 1071;
  while a < 4000 do
  begin
    b := 462;
    while b < 1400 do
    begin
      extended(a, b, divisor, factor_a, factor_b);
      write(output, a:5, b:5, ':', divisor:4, ' =', factor_a:5, ' *', a:5, ' +', factor_b:5, ' *', b:5);
      if factor_a * a + factor_b * b = divisor then writeln(output, ' right') else writeln(output, ' wrong');
      b := b + 301
    end;
    a := a + 997
  end;
  for a := -8 to 8 do
  begin
    for b := -3 to 3 do
      if b = 0 then write(output, '   .') else write(output, a div b:4);
    for b := 1 to 4 do write(output, a mod b:4);
    writeln(output, abs(a):4, ord(odd(a)):3)
  end;
  for a := 1 to 12 do write(output, power(7, a * 1000, 10007):6);
  writeln(output);
  writeln(output, -maxint + maxint div 2:1, ' ', maxint mod 65536:1, ' ', (maxint - 7) div (-13):1)
end.
