program committees(output);

{ the committees of k members that n people can make }
function choose(n, k: integer): integer;
begin
  if k = 0 then
    choose := 1
  else if k = n then
    choose := 1
  else
    choose := choose(n - 1, k - 1) + choose(n - 1, k - 1)
end;

begin
  writeln(choose(5, 2))
end.
