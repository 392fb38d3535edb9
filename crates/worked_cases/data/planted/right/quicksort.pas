program quick(output);
const size = 7;
var a: array [1..size] of integer; cut, i: integer;

procedure fill;
begin
  a[1] := 4; a[2] := 7; a[3] := 1; a[4] := 5; a[5] := 2; a[6] := 6; a[7] := 3
end;

procedure swap(var x, y: integer);
var t: integer;
begin
  t := x; x := y; y := t
end;

{ puts a[high] where it belongs, and its place into cut }
procedure divide(low, high: integer);
var i: integer;
begin
  cut := low;
  for i := low to high - 1 do
    if a[i] < a[high] then
      begin
        swap(a[i], a[cut]);
        cut := cut + 1
      end;
  swap(a[cut], a[high])
end;

procedure sort(low, high: integer);
var at: integer;
begin
  if low < high then
    begin
      divide(low, high);
      at := cut;
      sort(low, at - 1);
      sort(at + 1, high)
    end
end;

begin
  fill;
  sort(1, size);
  for i := 1 to size do write(a[i]: 2);
  writeln
end.
