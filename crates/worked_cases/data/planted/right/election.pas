program election(input, output);
type list = 'a'..'c';
var votes: array [list] of integer; cast, invalid: integer; winner: char;

procedure open;
var l: list;
begin
  for l := 'a' to 'c' do votes[l] := 0;
  cast := 0;
  invalid := 0
end;

procedure ballot(l: char);
begin
  cast := cast + 1;
  if l in ['a'..'c'] then votes[l] := votes[l] + 1
  else invalid := invalid + 1
end;

procedure poll;
var l: char;
begin
  while not eoln do
    begin
      read(l);
      ballot(l)
    end
end;

procedure elect;
var l: list;
begin
  winner := 'a';
  for l := 'b' to 'c' do
    if votes[l] > votes[winner] then winner := l
end;

procedure day;
begin
  open;
  poll;
  elect
end;

begin
  day;
  writeln(winner, cast: 3, invalid: 3)
end.
