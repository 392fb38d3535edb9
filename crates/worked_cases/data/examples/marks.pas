program marks(output);
var ann, bob, cleo: integer;

procedure add(var total: integer; points: integer);
begin
  total := total + points
end;

{ one point more from five points on, two from ten on }
procedure reward(var total: integer);
begin
  if total > 10 then
    add(total, 2)
  else if total >= 5 then
    add(total, 1)
end;

procedure pupil(var total: integer; points: integer);
begin
  add(total, points);
  reward(total)
end;

procedure lesson;
begin
  pupil(ann, 7);
  pupil(bob, 3);
  pupil(cleo, 10)
end;

begin
  ann := 0;
  bob := 0;
  cleo := 0;
  lesson;
  writeln(ann: 3, bob: 3, cleo: 3)
end.
