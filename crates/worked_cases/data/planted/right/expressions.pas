program expressions(input, output);
var c: char; first, second: integer;

procedure next;
begin
  read(c)
end;

procedure expression(var v: integer); forward;

procedure factor(var v: integer);
begin
  if c = '(' then
    begin
      next;
      expression(v);
      next
    end
  else
    begin
      v := ord(c) - ord('0');
      next
    end
end;

procedure term(var v: integer);
var w: integer;
begin
  factor(v);
  while c = '*' do
    begin
      next;
      factor(w);
      v := v * w
    end
end;

procedure expression;
var w: integer; plus: Boolean;
begin
  term(v);
  while c in ['+', '-'] do
    begin
      plus := c = '+';
      next;
      term(w);
      if plus then v := v + w else v := v - w
    end
end;

procedure lines;
begin
  next;
  expression(first);
  next;
  expression(second)
end;

begin
  lines;
  writeln(first: 3, second: 3)
end.
