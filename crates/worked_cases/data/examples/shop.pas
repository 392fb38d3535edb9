program shop;
var total, sold: integer;

procedure open;
begin
  sold := 0
end;

procedure bread;
begin
  total := total + 3;
  sold := sold + 1
end;

procedure breakfast;
begin
  bread;
  bread
end;

begin
  open;
  breakfast
end.
