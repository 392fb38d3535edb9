program trees(output);
type tree = ^node;
  node = record key: integer; left, right: tree end;
var root: tree; size, depth: integer;

procedure insert(var t: tree; key: integer);
begin
  if t = nil then
    begin
      new(t);
      t^.key := key; t^.left := nil; t^.right := nil
    end
  else if key < t^.key then insert(t^.left, key)
  else insert(t^.right, key)
end;

function count(t: tree): integer;
begin
  if t = nil then count := 0
  else count := count(t^.left) + 1 + count(t^.right)
end;

function greater(a, b: integer): integer;
begin
  if a > b then greater := a else greater := b
end;

function height(t: tree): integer;
begin
  if t = nil then height := 0
  else height := 1 + greater(height(t^.left), height(t^.right))
end;

procedure build;
begin
  root := nil;
  insert(root, 4); insert(root, 2); insert(root, 6); insert(root, 5)
end;

procedure measure;
begin
  size := count(root);
  depth := height(root)
end;

begin
  build;
  measure;
  writeln(size: 2, depth: 2)
end.
