program calendar(output);
var spring, century, summer: integer;

function leap(y: integer): Boolean;
begin
  leap := (y mod 4 = 0) and ((y mod 100 <> 0) or (y mod 400 = 0))
end;

function days(m, y: integer): integer;
begin
  case m of
    1, 3, 5, 7, 8, 10, 12: days := 31;
    4, 6, 9, 11: days := 30;
    2: if leap(y) then days := 29 else days := 28
  end
end;

{ days from the first of January on, that day included }
function within(d, m, y: integer): integer;
var i, n: integer;
begin
  n := d;
  for i := 1 to m - 1 do n := n + days(i, y);
  within := n
end;

procedure count;
begin
  spring := within(1, 3, 2023);
  century := within(1, 3, 1900);
  summer := within(1, 7, 2024)
end;

begin
  count;
  writeln(spring: 4, century: 4, summer: 4)
end.
