program rabbits(output);

{ fib(0) = 0, fib(1) = 1, and then the sum of the two before }
function fib(month: integer): integer;
begin
  if month < 2 then
    fib := 1
  else
    fib := fib(month - 1) + fib(month - 2)
end;

begin
  writeln(fib(6))
end.
