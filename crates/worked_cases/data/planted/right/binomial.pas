program binomial(output);
var two, three, six: integer;

function sum(a, b: integer): integer;
begin
  sum := a + b
end;

function choose(n, k: integer): integer;
begin
  if k = 0 then choose := 1
  else if k = n then choose := 1
  else choose := sum(choose(n - 1, k - 1), choose(n - 1, k))
end;

procedure count;
begin
  two := choose(2, 2);
  three := choose(4, 2);
  six := choose(3, 3)
end;

begin
  count;
  writeln(two: 3, three: 3, six: 3)
end.
