program searching(output);
const size = 9;
var a: array [1..size] of integer; first, second, third: integer;

procedure fill;
var i: integer;
begin
  for i := 1 to size do a[i] := i * i
end;

function middle(low, high: integer): integer;
begin
  middle := (low + high) div 2
end;

function place(x, low, high: integer): integer;
var m: integer;
begin
  if low > high then place := 0
  else
    begin
      m := middle(low, high);
      if a[m] = x then place := m
      else if a[m] < x then place := place(x, m + 1, high)
      else place := place(x, low, m - 1)
    end
end;

procedure search;
begin
  first := place(25, 1, size);
  second := place(81, 1, size);
  third := place(50, 1, size)
end;

begin
  fill;
  search;
  writeln(first: 2, second: 2, third: 2)
end.
