program list(output);
type link = ^node;
     node = record value: integer; next: link end;
var first: link;

procedure push(value: integer);
var made: link;
begin
  new(made);
  made^.value := value;
  made^.next := first;
  first := made
end;

procedure reverse;
var left, done, next: link;
begin
  left := first;
  done := nil;
  while left^.next <> nil do
    begin
      next := left^.next;
      left^.next := done;
      done := left;
      left := next
    end;
  first := done
end;

procedure show;
var at: link;
begin
  at := first;
  while at <> nil do
    begin
      writeln(at^.value);
      at := at^.next
    end
end;

begin
  first := nil;
  push(1); push(2); push(3);
  reverse;
  show
end.
