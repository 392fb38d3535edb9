program towers(output);
type peg = (left, middle, right);
var on: array [peg] of integer; moves: integer;

procedure carry(from, into: peg);
begin
  on[from] := on[from] - 1;
  on[into] := on[into] + 1;
  moves := moves + 1
end;

procedure move(n: integer; from, into, by: peg);
begin
  if n > 0 then
    begin
      move(n - 1, from, by, into);
      carry(from, into);
      move(n - 1, by, into, from)
    end
end;

procedure play;
begin
  on[left] := 3; on[middle] := 0; on[right] := 0;
  moves := 0;
  move(3, left, right, middle)
end;

begin
  play;
  writeln(on[left]: 2, on[middle]: 2, on[right]: 2, moves: 3)
end.
