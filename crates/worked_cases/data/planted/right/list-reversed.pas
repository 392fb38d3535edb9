program reversing(output);
type list = ^cell;
  cell = record value: integer; next: list end;
var first: list; before, after: integer;

procedure push(value: integer);
var c: list;
begin
  new(c);
  c^.value := value;
  c^.next := first;
  first := c
end;

procedure build;
begin
  first := nil;
  push(1); push(2); push(4); push(8)
end;

procedure turn;
var turned, rest: list;
begin
  turned := nil;
  while first <> nil do
    begin
      rest := first^.next;
      first^.next := turned;
      turned := first;
      first := rest
    end;
  first := turned
end;

function sum(l: list): integer;
begin
  if l = nil then sum := 0
  else sum := l^.value + sum(l^.next)
end;

begin
  build;
  before := sum(first);
  turn;
  after := sum(first);
  writeln(before: 3, after: 3)
end.
