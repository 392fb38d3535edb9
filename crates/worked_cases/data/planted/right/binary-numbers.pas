program bases(output);
type text = packed array [1..8] of char;
var two, ten, sixteen: text;

function digit(n: integer): char;
begin
  if n < 10 then digit := chr(ord('0') + n)
  else digit := chr(ord('A') + n - 10)
end;

procedure clear(var t: text);
begin
  t := '        '
end;

procedure convert(n, base: integer; var t: text);
var i: integer;
begin
  clear(t);
  i := 8;
  repeat
    t[i] := digit(n mod base);
    n := n div base;
    i := i - 1
  until n = 0
end;

procedure all(n: integer);
begin
  convert(n, 2, two);
  convert(n, 10, ten);
  convert(n, 16, sixteen)
end;

begin
  all(173);
  writeln(two, ten, sixteen)
end.
