program adders;
var x: integer;
procedure one;
begin
  x := x + 1
end;
procedure two;
begin
  one;
  one
end;
begin
  x := 1;
  two
end.
