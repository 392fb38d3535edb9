program divisor(output);

function gcd(a, b: integer): integer;
begin
  if b = 0 then
    gcd := 1
  else
    gcd := gcd(b, a mod b)
end;

begin
  writeln(gcd(252, 198))
end.
