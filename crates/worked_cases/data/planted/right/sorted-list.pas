program lists(output);
type list = ^cell;
  cell = record value: integer; next: list end;
var first: list; count: integer;

function made(value: integer; next: list): list;
var c: list;
begin
  new(c);
  c^.value := value;
  c^.next := next;
  made := c
end;

procedure insert(value: integer);
var at: list; further: Boolean;
begin
  if first = nil then first := made(value, nil)
  else if value < first^.value then first := made(value, first)
  else
    begin
      at := first;
      further := true;
      while further do
        if at^.next = nil then further := false
        else if at^.next^.value > value then further := false
        else at := at^.next;
      at^.next := made(value, at^.next)
    end;
  count := count + 1
end;

procedure build;
begin
  first := nil;
  count := 0;
  insert(20); insert(30); insert(10); insert(25)
end;

procedure show;
var at: list;
begin
  at := first;
  while at <> nil do begin write(at^.value: 3); at := at^.next end;
  writeln
end;

begin
  build;
  show;
  writeln(count: 3)
end.
