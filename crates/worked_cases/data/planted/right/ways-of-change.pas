program ways(output);
const most = 10;
var ways: array [0..most] of integer; five, ten: integer;

procedure start;
var n: integer;
begin
  for n := 1 to most do ways[n] := 0;
  ways[0] := 1
end;

procedure extend(coin: integer);
var n: integer;
begin
  for n := coin to most do
    ways[n] := ways[n] + ways[n - coin]
end;

procedure count;
begin
  start;
  extend(1);
  extend(2);
  extend(5)
end;

procedure answer(n: integer; var w: integer);
begin
  w := ways[n]
end;

begin
  count;
  answer(5, five);
  answer(10, ten);
  writeln(five: 3, ten: 3)
end.
