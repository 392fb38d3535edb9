program register(output);
type tree = ^node;
     node = record number: integer; left, right: tree end;
var numbers: tree;

procedure insert(var t: tree; number: integer);
begin
  if t = nil then
    begin
      new(t);
      t^.number := number;
      t^.left := nil;
      t^.right := nil
    end
  else if number < t^.number then
    insert(t^.left, number)
  else
    insert(t^.right, number)
end;

procedure remove(var t: tree; number: integer);
begin
  if t <> nil then
    if number < t^.number then
      remove(t^.left, number)
    else if number > t^.number then
      remove(t^.right, number)
    else if t^.left <> nil then
      t := t^.left
    else
      t := t^.right
end;

procedure show(t: tree);
begin
  if t <> nil then
    begin
      show(t^.left);
      writeln(t^.number);
      show(t^.right)
    end
end;

begin
  numbers := nil;
  insert(numbers, 20);
  insert(numbers, 10);
  insert(numbers, 30);
  remove(numbers, 20);
  show(numbers)
end.
