program mirror(output);
var word: packed array [1..7] of char;

procedure swap(i, j: integer);
var kept: char;
begin
  kept := word[i];
  word[i] := word[j];
  word[j] := kept
end;

procedure turn(first, last: integer);
begin
  if first < last then
  begin
    swap(first, last);
    turn(first + 1, last)
  end
end;

begin
  word := 'reverse';
  turn(1, 7);
  writeln(word)
end.
