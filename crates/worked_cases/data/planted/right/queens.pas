program queens(output);
const n = 4;
var column: array [1..n] of integer; tries, placed, i: integer;

function distance(a, b: integer): integer;
begin
  distance := abs(a - b)
end;

function free(row, at: integer): Boolean;
var i: integer; so: Boolean;
begin
  so := true;
  for i := 1 to row - 1 do
    begin
      if column[i] = at then so := false;
      if distance(column[i], at) = row - i then so := false
    end;
  free := so
end;

procedure put(row: integer);
var at: integer;
begin
  at := 1;
  while (placed < n) and (at <= n) do
    begin
      tries := tries + 1;
      if free(row, at) then
        begin
          column[row] := at;
          if row = n then placed := n
          else put(row + 1)
        end;
      at := at + 1
    end
end;

procedure solve;
begin
  tries := 0;
  placed := 0;
  put(1)
end;

begin
  solve;
  for i := 1 to n do write(column[i]: 2);
  writeln
end.
