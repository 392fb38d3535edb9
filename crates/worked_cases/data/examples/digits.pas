program digits(output);

function digitsum(n: integer): integer;
var sum: integer;
begin
  sum := 0;
  while n > 0 do
    sum := sum + n mod 10;
  digitsum := sum
end;

begin
  writeln(digitsum(12))
end.
