program solution;
var ann, bob, cleo: integer;

procedure add(var total: integer; points: integer);
begin
  total := total + points
end;

procedure reward(var total: integer);
begin
  if total >= 10 then add(total, 2)
  else if total >= 5 then add(total, 1)
end;

procedure pupil(var total: integer; points: integer);
begin
  add(total, points);
  reward(total)
end;

begin
end.
