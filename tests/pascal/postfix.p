program postfix(input, output);
{ Works out lines in postfix notation: digits, names of one letter that are set before, and operators. }
const most = 20;
var
  stack: record
    height: integer;
    items: array [1..most] of integer
  end;
  named: array ['a'..'z'] of integer;
  letter: char;
  lines: integer;

procedure push(n: integer);
begin
  stack.height := stack.height + 1;
  stack.items[stack.height] := n
end;

function pop: integer;
begin
  pop := stack.items[stack.height];
  stack.height := stack.height - 1
end;

procedure operate(operator: char);
var right, left: integer;
begin
  right := pop;
  left := pop;
  case operator of
    '+': push(left + right);
    '-': push(left - right);
    '*': push(left * right);
    '/': push(left div right);
    '%': push(left mod right);
    '<': push(ord(left < right));
    '=': push(ord(left = right))
  end
end;

procedure work_out;
var
  c: char;
  number: integer;
begin
  stack.height := 0;
  while not eoln(input) do
  begin
    c := input^;
    if (c >= '0') and (c <= '9') then
    begin
      number := 0;
      while (input^ >= '0') and (input^ <= '9') do
      begin
        number := 10 * number + ord(input^) - ord('0');
        get(input)
      end;
      push(number)
    end
    else
    begin
      get(input);
      if (c >= 'a') and (c <= 'z') then push(named[c])
      else if c = '!' then begin named[input^] := pop; get(input) end
      else if c <> ' ' then operate(c)
    end
  end;
  readln(input)
end;

begin
  for letter := 'a' to 'z' do named[letter] := ord(letter) - ord('a');
  lines := 0;
  while not eof(input) do
  begin
    work_out;
    lines := lines + 1;
    write(output, 'line ', lines:1, ':');
    while stack.height > 0 do write(output, ' ', pop:1);
    writeln(output)
  end
end.
