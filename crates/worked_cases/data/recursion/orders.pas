program orders(output);
var letter: packed array [1..3] of char;

procedure swap(i, j: integer);
var kept: char;
begin
  kept := letter[i];
  letter[i] := letter[j];
  letter[j] := kept
end;

{ writes all orders of the letters from this place on, and leaves them as they were }
procedure place(first: integer);
var i: integer;
begin
  if first = 3 then
    writeln(letter)
  else
    for i := first to 3 do
    begin
      swap(first, i);
      place(first + 1);
      swap(first, first)
    end
end;

begin
  letter := 'abc';
  place(1)
end.
