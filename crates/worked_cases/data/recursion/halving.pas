program halving(output);

function power(base, exponent: integer): integer;
begin
  if exponent = 0 then
    power := 1
  else if odd(exponent) then
    power := power(base, exponent div 2) * power(base, exponent div 2)
  else
    power := power(base, exponent div 2) * power(base, exponent div 2)
end;

begin
  writeln(power(3, 10))
end.
