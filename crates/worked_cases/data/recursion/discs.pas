program discs(output);

{ writes a move, as 12 for one from peg 1 to peg 2 }
procedure carry(from, onto: integer);
begin
  write(from: 2, onto: 1)
end;

procedure move(discs, from, onto, by: integer);
begin
  if discs > 1 then
    move(discs - 1, from, by, onto);
  carry(from, by);
  if discs > 1 then
    move(discs - 1, by, onto, from)
end;

begin
  move(4, 1, 3, 2);
  writeln
end.
