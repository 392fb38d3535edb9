program garden;
var seed: integer;
function die(n: integer): integer; begin seed := (seed * 137 + 53) mod 8191; die := seed mod n end;
procedure plant(n: integer); forward;
procedure Branch(n: integer);
  procedure leaf; begin end;
begin if n > 0 then begin plant(n - 1); leaf; if die(3) > 0 then plant(n - 1) end end;
procedure plant;
  procedure leaf; begin if die(2) = 0 then Branch(n - 1) end;
begin leaf; if die(4) > 0 then Branch(n) end;
procedure rest; begin end;
begin seed := 7; plant(5); rest; Branch(4) end.
