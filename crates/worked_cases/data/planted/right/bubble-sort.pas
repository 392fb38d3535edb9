program bubble(output);
const size = 6;
var a: array [1..size] of integer; exchanges: integer; i: 1..size;

procedure exchange(var x, y: integer);
var t: integer;
begin
  t := x; x := y; y := t;
  exchanges := exchanges + 1
end;

procedure pass(last: integer);
var i: integer;
begin
  for i := 1 to last - 1 do
    if a[i] > a[i + 1] then exchange(a[i], a[i + 1])
end;

procedure sort;
var last: integer;
begin
  exchanges := 0;
  for last := size downto 2 do pass(last)
end;

begin
  a[1] := 6; a[2] := 2; a[3] := 9; a[4] := 4; a[5] := 1; a[6] := 5;
  sort;
  for i := 1 to size do write(a[i]: 3);
  writeln
end.
