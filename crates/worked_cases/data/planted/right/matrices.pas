program matrices(output);
type matrix = array [1..2, 1..2] of integer;
var a, b, sum, product: matrix;

procedure fill(var m: matrix; p, q, r, s: integer);
begin
  m[1, 1] := p; m[1, 2] := q; m[2, 1] := r; m[2, 2] := s
end;

procedure add(var x, y, z: matrix);
var i, j: integer;
begin
  for i := 1 to 2 do
    for j := 1 to 2 do z[i, j] := x[i, j] + y[i, j]
end;

function entry(var x, y: matrix; i, j: integer): integer;
var k, s: integer;
begin
  s := 0;
  for k := 1 to 2 do s := s + x[i, k] * y[k, j];
  entry := s
end;

procedure multiply(var x, y, z: matrix);
var i, j: integer;
begin
  for i := 1 to 2 do
    for j := 1 to 2 do z[i, j] := entry(x, y, i, j)
end;

procedure compute;
begin
  fill(a, 1, 2, 3, 4);
  fill(b, 0, 1, 2, 1);
  add(a, b, sum);
  multiply(a, b, product)
end;

begin
  compute;
  writeln(sum[1, 1]: 3, sum[1, 2]: 3, sum[2, 1]: 3, sum[2, 2]: 3);
  writeln(product[1, 1]: 3, product[1, 2]: 3, product[2, 1]: 3, product[2, 2]: 3)
end.
