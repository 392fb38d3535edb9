program forgotten;
var count, next: integer;
begin
  count := 1;
  next := next + 1
end.
