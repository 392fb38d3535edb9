program evens(output);
var
  dice: array [1..5] of integer;
  i, count: integer;

function isodd(n: integer): boolean; forward;

function iseven(n: integer): boolean;
begin
  if n = 0 then iseven := true else iseven := isodd(n - 1)
end;

function isodd;
begin
  if n = 0 then isodd := true else isodd := iseven(n - 1)
end;

begin
  dice[1] := 4;
  dice[2] := 3;
  dice[3] := 4;
  dice[4] := 2;
  dice[5] := 4;
  count := 0;
  for i := 1 to 5 do
    if iseven(dice[i]) then count := count + 1;
  writeln(count)
end.
