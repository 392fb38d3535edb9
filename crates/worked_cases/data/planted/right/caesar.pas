program caesar(output);
type word = packed array [1..6] of char;
var plain, secret, back: word;

function shifted(c: char; by: integer): char;
var n: integer;
begin
  n := ord(c) - ord('a') + by;
  if n > 25 then n := n - 26;
  if n < 0 then n := n + 26;
  shifted := chr(n + ord('a'))
end;

procedure code(var from, into: word; by: integer);
var i: integer;
begin
  for i := 1 to 6 do into[i] := shifted(from[i], by)
end;

begin
  plain := 'xenoph';
  code(plain, secret, 3);
  code(secret, back, -3);
  writeln(secret, ' ', back)
end.
