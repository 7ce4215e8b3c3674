program listpool(pool, output);
{ Lists a pool of strings, the first 256 of which are the codes themselves. }
label 9999;
var
  pool: text;
  hex: array [0..15] of char;
  k, n, s, total: integer;
  m: char;
  done: boolean;

procedure put_code(c: integer);
begin
  if (c >= 32) and (c <= 126) then
  begin
    write(output, chr(c));
    total := total + 1;
    if c = 34 then write(output, chr(c))
  end
  else if c < 128 then
  begin
    write(output, '^^');
    total := total + 3;
    if c < 64 then write(output, chr(c + 64)) else write(output, chr(c - 64))
  end
  else
  begin
    write(output, '^^', hex[c div 16], hex[c mod 16]);
    total := total + 4
  end
end;

begin
  total := 0;
  for k := 0 to 9 do hex[k] := chr(k + 48);
  for k := 10 to 15 do hex[k] := chr(k + 87);
  for s := 0 to 255 do
  begin
    write(output, s:3, ': "');
    put_code(s);
    writeln(output, '"')
  end;
  s := 256;
  done := false;
  reset(pool);
  while not done do
  begin
    if eof(pool) then
    begin
      write(output, '! no last line');
      goto 9999
    end;
    read(pool, m);
    if ord(m) = 42 then done := true
    else
    begin
      n := 10 * (ord(m) - 48);
      read(pool, m);
      n := n + ord(m) - 48;
      write(output, s:3, ': "');
      while n > 0 do
      begin
        if eoln(pool) then
        begin
          write(output, '! short line');
          goto 9999
        end;
        read(pool, m);
        put_code(ord(m));
        n := n - 1
      end;
      writeln(output, '"');
      s := s + 1
    end;
    readln(pool)
  end;
  writeln(output, '(', total:1, ' characters in all.)');
  9999:
end.
