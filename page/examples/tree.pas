program tree(output);
{ Keeps numbers in a sorted tree, smaller ones to the left, and prints them from the greatest to the smallest. }
type link = ^node;
     node = record key: integer; left, right: link end;
var root: link;

{ Puts a key where it belongs, if it is not there yet. }
procedure insert(var at: link; key: integer);
begin
  if at = nil then
    begin
      new(at);
      at^.key := key;
      at^.left := nil;
      at^.right := nil
    end
  else if key < at^.key then insert(at^.left, key)
  else if key > at^.key then insert(at^.right, key)
end;

{ Exchanges what hangs left and right of one node. }
procedure turn(at: link);
var old: link;
begin
  old := at^.left;
  at^.left := at^.right;
  at^.right := at^.left
end;

{ Turns a whole tree around, so that the greater keys are to the left. }
procedure mirror(at: link);
begin
  if at <> nil then
    begin
      turn(at);
      mirror(at^.left);
      mirror(at^.right)
    end
end;

{ Prints the keys of a tree from left to right. }
procedure show(at: link);
begin
  if at <> nil then
    begin
      show(at^.left);
      write(at^.key: 4);
      show(at^.right)
    end
end;

begin
  root := nil;
  insert(root, 20); insert(root, 10); insert(root, 30);
  mirror(root);
  show(root);
  writeln
end.
