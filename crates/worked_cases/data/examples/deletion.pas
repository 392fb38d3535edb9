program deletion(output);
type tree = ^node;
     node = record key: integer; left, right: tree end;
var all: tree;

procedure add(var t: tree; key: integer);
begin
  if t = nil then begin
    new(t);
    t^.key := key;
    t^.left := nil;
    t^.right := nil
  end
  else if key < t^.key then add(t^.left, key)
  else add(t^.right, key)
end;

procedure remove(var t: tree; key: integer);
begin
  if key < t^.key then remove(t^.left, key)
  else if key > t^.key then remove(t^.right, key)
  else if t^.left = nil then t := t^.right
  else t := t^.left
end;

procedure print(t: tree);
begin
  if t <> nil then begin
    print(t^.left);
    write(t^.key: 3);
    print(t^.right)
  end
end;

begin
  all := nil;
  add(all, 50);
  add(all, 30);
  add(all, 70);
  add(all, 20);
  add(all, 40);
  remove(all, 30);
  print(all)
end.
