program factors(output);
var distinct, all, greatest: integer;

function divides(p, n: integer): Boolean;
begin
  divides := n mod p = 0
end;

procedure note(p: integer);
begin
  all := all + 1;
  if p > greatest then greatest := p
end;

{ divides n by p as often as that goes }
procedure strip(var n: integer; p: integer);
begin
  distinct := distinct + 1;
  while divides(p, n) do
    begin
      note(p);
      n := n div p
    end
end;

procedure factor(n: integer);
var p: integer;
begin
  distinct := 0; all := 0; greatest := 1;
  p := 2;
  while n > 1 do
    begin
      if divides(p, n) then strip(n, p);
      p := p + 1
    end
end;

begin
  factor(360);
  writeln(distinct: 2, all: 2, greatest: 2)
end.
