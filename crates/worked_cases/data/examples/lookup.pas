program lookup(output);
type list = ^item;
     item = record key: integer; next: list end;
var first: list;

procedure add(key: integer);
var made: list;
begin
  new(made);
  made^.key := key;
  made^.next := first;
  first := made
end;

function holds(key: integer): Boolean;
var p: list;
begin
  p := first;
  while (p <> nil) and (p^.key <> key) do
    p := p^.next;
  holds := p <> nil
end;

begin
  first := nil;
  add(30);
  add(20);
  writeln(holds(10))
end.
