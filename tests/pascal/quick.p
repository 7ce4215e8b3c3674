program quick(output);
{ Sorts made numbers by parting them, and looks each of them up by halving. }
const size = 200;
type
  index = 1..size;
  numbers = array [1..size] of integer;
var
  all, kept: numbers;
  seed, place, found: integer;

function next: integer;
begin
  seed := (seed * 421 + 1663) mod 7875;
  next := seed
end;

procedure exchange(var one, other: integer);
var between: integer;
begin
  between := one;
  one := other;
  other := between
end;

procedure sort(var a: numbers; low, high: integer);
var left, right, middle: integer;
begin
  left := low;
  right := high;
  middle := a[(low + high) div 2];
  repeat
    while a[left] < middle do left := left + 1;
    while a[right] > middle do right := right - 1;
    if left <= right then
    begin
      exchange(a[left], a[right]);
      left := left + 1;
      right := right - 1
    end
  until left > right;
  if low < right then sort(a, low, right);
  if left < high then sort(a, left, high)
end;

function place_of(var a: numbers; wanted: integer): integer;
var low, high, middle: integer;
begin
  low := 1;
  high := size;
  while low < high do
  begin
    middle := (low + high) div 2;
    if a[middle] < wanted then low := middle + 1 else high := middle
  end;
  place_of := low
end;

begin
  seed := 17;
  for place := 1 to size do all[place] := next;
  kept := all;
  sort(all, 1, size);
  for place := 1 to size do
  begin
    write(output, all[place]:6);
    if place mod 10 = 0 then writeln(output)
  end;
  found := 0;
  for place := 1 to size do
    if all[place_of(all, kept[place])] = kept[place] then found := found + 1;
  writeln(output, found:1, ' of ', size:1, ' found')
end.
