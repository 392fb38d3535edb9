program coins;
var cents, total: integer;
begin
  cents := 50;
  total := cents + 20;
  total := total + 5
end.
