program copies(output);
{ What is copied whole, what is only named, and what a call sees of either. }
type
  pair = record
    left, right: integer
  end;
  row = array [1..3] of pair;
  table = record
    rows: array ['a'..'b'] of row;
    name: array [1..4] of char
  end;
var
  one, other: table;
  r: row;
  i, depth: integer;

procedure show(t: table; mark: char);
var
  c: char;
  n: integer;
begin
  write(output, mark, ' ');
  for n := 1 to 4 do write(output, t.name[n]);
  for c := 'a' to 'b' do
    for n := 1 to 3 do write(output, t.rows[c][n].left:4, ',', t.rows[c, n].right:1);
  writeln(output)
end;

procedure change(t: table; var named: pair; n: integer);
begin
  t.rows['a', 1].left := -n;
  named.left := named.left + n;
  show(t, 'v');
  named := t.rows['b', 3];
  named.right := n
end;

procedure aliases(var x, y: integer; z: integer);
begin
  x := x + 1;
  y := y * 2;
  z := z + x + y;
  writeln(output, 'x', x:4, ' y', y:4, ' z', z:4)
end;

procedure swap(var a, b: row);
var c: row;
begin
  c := a;
  a := b;
  b := c
end;

procedure down(var from: pair; inner: pair);
begin
  depth := depth + 1;
  inner.left := inner.left - 1;
  from.right := from.right + inner.left;
  if inner.left > 0 then down(from, inner);
  write(output, inner.left:3);
  depth := depth - 1
end;

begin
  for i := 1 to 3 do
  begin
    one.rows['a', i].left := i;
    one.rows['a', i].right := i * i mod 10;
    one.rows['b', i].left := 10 * i;
    one.rows['b', i].right := 9 - i
  end;
  one.name[1] := 'o';
  one.name[2] := 'n';
  one.name[3] := 'e';
  one.name[4] := ' ';
  other := one;
  other.name[4] := '2';
  change(one, one.rows['a', 1], 7);
  show(one, '1');
  show(other, '2');
  i := 2;
  aliases(i, i, i);
  aliases(one.rows['a', i div 3].left, i, i);
  i := 3;
  aliases(i, other.rows['b', i].left, other.rows['b', i].left);
  show(one, '1');
  show(other, '2');
  swap(one.rows['a'], other.rows['b']);
  swap(one.rows['b'], one.rows['b']);
  r := other.rows['b'];
  other := one;
  other.rows['a'] := r;
  show(one, '1');
  show(other, '2');
  depth := 0;
  down(one.rows['a', 1], one.rows['a', 1]);
  writeln(output, depth:3);
  show(one, '1')
end.
