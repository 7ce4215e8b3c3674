program cipher(input, output, secret);
{ Shifts letters by a key that moves on, keeps them in a file of chars, and reads them back. }
var
  secret: file of char;
  c: char;
  key, letters, n: integer;
  count: array [char] of integer;

function shifted(c: char; by: integer): char;
begin
  if (c >= 'a') and (c <= 'z') then shifted := chr((ord(c) - ord('a') + by) mod 26 + ord('a'))
  else if (c >= 'A') and (c <= 'Z') then shifted := chr((ord(c) - ord('A') + by) mod 26 + ord('A'))
  else shifted := c
end;

begin
  for n := 0 to 255 do count[chr(n)] := 0;
  rewrite(secret);
  key := 3;
  letters := 0;
  while not eof(input) do
  begin
    while not eoln(input) do
    begin
      secret^ := shifted(input^, key);
      put(secret);
      get(input);
      letters := letters + 1;
      key := (key * 5 + 1) mod 26
    end;
    readln(input);
    write(secret, '|')
  end;
  reset(secret);
  while not eof(secret) do
  begin
    write(output, secret^);
    count[secret^] := count[secret^] + 1;
    get(secret)
  end;
  writeln(output);
  reset(secret);
  key := 3;
  while not eof(secret) do
  begin
    read(secret, c);
    if c = '|' then writeln(output)
    else
    begin
      write(output, shifted(c, -key));
      key := (key * 5 + 1) mod 26
    end
  end;
  for c := 'a' to 'z' do write(output, c:2, count[c]:1);
  writeln(output);
  writeln(output, letters:1, ' chars')
end.
