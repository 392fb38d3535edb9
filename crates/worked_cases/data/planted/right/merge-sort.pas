program merging(output);
const size = 8;
type list = array [1..size] of integer;
var a: list; i: integer;

procedure fill;
begin
  a[1] := 5; a[2] := 2; a[3] := 8; a[4] := 1; a[5] := 9; a[6] := 3; a[7] := 8; a[8] := 4
end;

procedure merge(low, middle, high: integer);
var b: list; i, j, k: integer; left: Boolean;
begin
  i := low; j := middle + 1;
  for k := low to high do
    begin
      if i > middle then left := false
      else if j > high then left := true
      else left := a[i] <= a[j];
      if left then begin b[k] := a[i]; i := i + 1 end
      else begin b[k] := a[j]; j := j + 1 end
    end;
  for k := low to high do a[k] := b[k]
end;

procedure sort(low, high: integer);
var middle: integer;
begin
  if low < high then
    begin
      middle := (low + high) div 2;
      sort(low, middle);
      sort(middle + 1, high);
      merge(low, middle, high)
    end
end;

begin
  fill;
  sort(1, size);
  for i := 1 to size do write(a[i]: 2);
  writeln
end.
