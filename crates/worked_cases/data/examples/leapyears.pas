program leapyears(output);
var year, count: integer;

function leap(year: integer): Boolean;
begin
  leap := (year mod 4 = 0) and (year mod 100 <> 0)
end;

begin
  count := 0;
  for year := 1 to 20000 do
    if leap(year) then count := count + 1;
  writeln(count)
end.
