program numbers(output);
const size = 8;
type index = 1..size;
var a: array [index] of integer; smallest, greatest: integer;

procedure fill;
begin
  a[1] := 31; a[2] := 17; a[3] := 40; a[4] := 8; a[5] := 25; a[6] := 3; a[7] := 40; a[8] := 12
end;

procedure insert(last: index);
var j: integer; x: integer; open: Boolean;
begin
  x := a[last];
  j := last - 1;
  open := true;
  while open do
    if j < 1 then open := false
    else if a[j] <= x then open := false
    else begin a[j + 1] := a[j]; j := j - 1 end;
  a[j + 1] := x
end;

procedure sort;
var i: index;
begin
  for i := 2 to size do insert(i)
end;

procedure ends;
begin
  smallest := a[1];
  greatest := a[size]
end;

begin
  fill; sort; ends;
  writeln(smallest: 1, ' to ', greatest: 1)
end.
