program deepest(output);
type
  link = ^node;
  node = record
    value: integer;
    less, more: link
  end;
var root: link;

procedure insert(value: integer; var at: link);
begin
  if at = nil then
  begin
    new(at);
    at^.value := value;
    at^.less := nil;
    at^.more := nil
  end
  else if value < at^.value then
    insert(value, at^.less)
  else
    insert(value, at^.more)
end;

function larger(a, b: integer): integer;
begin
  if a > b then larger := a else larger := b
end;

{ how many nodes are on the longest way down }
function height(at: link): integer;
begin
  if at = nil then
    height := 0
  else
    height := 1 + larger(height(at^.less), 0)
end;

begin
  root := nil;
  insert(5, root);
  insert(3, root);
  insert(8, root);
  insert(9, root);
  writeln(height(root))
end.
