program fractions(output);
type fraction = record above, below: integer end;
var half, third, sum, product: fraction;

procedure make(var f: fraction; above, below: integer);
begin
  f.above := above;
  f.below := below
end;

function divisor(a, b: integer): integer;
begin
  if b = 0 then divisor := a
  else divisor := divisor(b, a mod b)
end;

procedure reduce(var f: fraction);
var d: integer;
begin
  d := divisor(f.above, f.below);
  f.above := f.above div d;
  f.below := f.below div d
end;

procedure add(a, b: fraction; var c: fraction);
begin
  make(c, a.above * b.below + b.above * a.below, a.below * b.below);
  reduce(c)
end;

procedure multiply(a, b: fraction; var c: fraction);
begin
  make(c, a.above * b.above, a.below * b.below);
  reduce(c)
end;

procedure compute;
begin
  make(half, 1, 2);
  make(third, 2, 6);
  add(half, third, sum);
  multiply(half, third, product)
end;

begin
  compute;
  writeln(sum.above: 1, '/', sum.below: 1, ' ', product.above: 1, '/', product.below: 1)
end.
