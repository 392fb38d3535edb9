program life(output);
type place = 0..7;
  ring = array [place] of Boolean;
var cells: ring; living, births, i: integer;

function neighbour(i: place; by: integer): place;
begin
  neighbour := (i + by + 8) mod 8
end;

{ whether a cell lives in the next round }
function alive(var r: ring; i: place): Boolean;
begin
  alive := r[neighbour(i, -1)] <> r[neighbour(i, 1)]
end;

procedure count(was, now: Boolean);
begin
  if now then living := living + 1;
  if now and not was then births := births + 1
end;

procedure round;
var old: ring; i: place;
begin
  old := cells;
  living := 0;
  for i := 0 to 7 do
    begin
      cells[i] := alive(old, i);
      count(old[i], cells[i])
    end
end;

procedure play;
var i: place;
begin
  for i := 0 to 7 do cells[i] := i = 3;
  births := 0;
  round
end;

begin
  play;
  for i := 0 to 7 do write(ord(cells[i]): 1);
  writeln(living: 3, births: 3)
end.
