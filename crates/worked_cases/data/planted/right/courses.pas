program courses(output);
type pupil = (anna, ben, clara, david, eva);
  group = set of pupil;
var chess, football, dance, both, single, none: group;

procedure join(var g: group; p: pupil);
begin
  g := g + [p]
end;

procedure enroll;
begin
  chess := []; football := []; dance := [];
  join(chess, anna); join(chess, ben);
  join(football, ben); join(football, clara);
  join(dance, clara); join(dance, anna); join(dance, david)
end;

procedure only(a, b, c: group; var d: group);
begin
  d := a - b - c
end;

procedure common(a, b: group; var c: group);
begin
  c := c + a * b
end;

procedure compare;
begin
  both := [];
  common(chess, football, both);
  common(football, dance, both);
  common(chess, dance, both);
  only(dance, chess, football, single);
  none := [anna..eva] - chess - football - dance
end;

procedure show(g: group);
var p: pupil;
begin
  for p := anna to eva do
    if p in g then write(ord(p): 2);
  writeln
end;

begin
  enroll;
  compare;
  show(both); show(single); show(none)
end.
