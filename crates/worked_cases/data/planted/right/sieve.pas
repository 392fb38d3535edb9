program sieve(output);
const most = 30;
type numbers = set of 2..most;
var primes: numbers; count, sum: integer;

procedure cross(p: integer);
var m: integer;
begin
  m := p + p;
  while m <= most do
    begin
      primes := primes - [m];
      m := m + p
    end
end;

procedure sift;
var p: integer;
begin
  primes := [2..most];
  for p := 2 to 5 do
    if p in primes then cross(p)
end;

procedure tally(p: integer);
begin
  count := count + 1;
  sum := sum + p
end;

procedure gather;
var n: integer;
begin
  count := 0;
  sum := 0;
  for n := 2 to most do
    if n in primes then tally(n)
end;

begin
  sift;
  gather;
  writeln(count: 3, sum: 4)
end.
