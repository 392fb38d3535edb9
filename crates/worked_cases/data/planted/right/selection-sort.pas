program sort(output);
const size = 4;
type index = 1..size;
var a: array [index] of integer;

procedure fill;
begin
  a[1] := 30; a[2] := 10; a[3] := 40; a[4] := 20
end;

procedure swap(var x, y: integer);
var t: integer;
begin
  t := x; x := y; y := t
end;

function least(from: index): index;
var i, found: index;
begin
  found := from;
  for i := from to size do
    if a[i] < a[found] then found := i;
  least := found
end;

procedure order;
var i: index;
begin
  for i := 1 to size - 1 do swap(a[i], a[least(i)])
end;

procedure show;
var i: index;
begin
  for i := 1 to size do writeln(a[i])
end;

begin
  fill; order; show
end.
