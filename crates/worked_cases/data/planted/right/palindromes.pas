program mirror(output);
type word = packed array [1..6] of char;
var hannah, redder, needed: Boolean;

function same(a, b: char): Boolean;
begin
  same := a = b
end;

function mirrored(w: word): Boolean;
var i: integer; so: Boolean;
begin
  so := true;
  for i := 1 to 3 do
    if not same(w[i], w[7 - i]) then so := false;
  mirrored := so
end;

procedure look;
begin
  hannah := mirrored('hannah');
  redder := mirrored('redder');
  needed := mirrored('deneed')
end;

begin
  look;
  writeln(hannah: 6, redder: 6, needed: 6)
end.
