program powers(output);
var even, odds, mixed: integer;

function square(n: integer): integer;
begin
  square := n * n
end;

function times(a, b: integer): integer;
begin
  times := a * b
end;

function power(n, k: integer): integer;
begin
  if k = 0 then power := 1
  else if odd(k) then power := times(n, square(power(n, k div 2)))
  else power := square(power(n, k div 2))
end;

procedure compute;
begin
  even := power(2, 8);
  odds := power(3, 5);
  mixed := power(5, 4)
end;

begin
  compute;
  writeln(even: 4, odds: 4, mixed: 4)
end.
