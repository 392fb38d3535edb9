program square(output);
type line = 1..3;
var a: array [line, line] of integer; rows, columns, diagonals: Boolean;

procedure put(i: line; p, q, r: integer);
begin
  a[i, 1] := p; a[i, 2] := q; a[i, 3] := r
end;

function row(i: line): integer;
begin
  row := a[i, 1] + a[i, 2] + a[i, 3]
end;

function column(j: line): integer;
begin
  column := a[1, j] + a[2, j] + a[3, j]
end;

function diagonal(down: Boolean): integer;
begin
  if down then diagonal := a[1, 1] + a[2, 2] + a[3, 3]
  else diagonal := a[1, 3] + a[2, 2] + a[3, 1]
end;

procedure examine;
begin
  rows := (row(1) = 15) and (row(2) = 15) and (row(3) = 15);
  columns := (column(1) = 15) and (column(2) = 15) and (column(3) = 15);
  diagonals := (diagonal(true) = 15) and (diagonal(false) = 15)
end;

begin
  put(1, 2, 7, 6); put(2, 9, 5, 1); put(3, 4, 3, 8);
  examine;
  writeln(rows: 6, columns: 6, diagonals: 6)
end.
