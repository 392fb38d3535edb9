program calculator(input, output);
var stack: array [1..10] of integer; top: 0..10; c: char; sums, numbers: integer;

procedure push(n: integer);
begin
  top := top + 1;
  stack[top] := n
end;

procedure pop(var n: integer);
begin
  n := stack[top];
  top := top - 1
end;

procedure apply(c: char);
var x, y: integer;
begin
  pop(y);
  pop(x);
  case c of
    '+': push(x + y);
    '-': push(x - y);
    '*': push(x * y)
  end;
  sums := sums + 1
end;

procedure number(c: char);
begin
  push(ord(c) - ord('0'));
  numbers := numbers + 1
end;

procedure work;
begin
  top := 0; sums := 0; numbers := 0;
  read(c);
  while c <> '.' do
    begin
      if (c >= '0') and (c <= '9') then number(c)
      else if c <> ' ' then apply(c);
      read(c)
    end
end;

begin
  work;
  writeln(stack[1]: 1, ' by ', sums: 1, ' of ', numbers: 1)
end.
