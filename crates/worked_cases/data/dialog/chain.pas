program chain(input);
var n: integer;
procedure next(k: integer);
begin
  if k > 1 then next(k - 1)
end;
begin
  read(n);
  next(n)
end.
