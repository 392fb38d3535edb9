program waiting(output);
const chairs = 4;
type chair = 0..3;
var who: array [chair] of char; first: chair; waiting: 0..chairs; seen: array [1..6] of char; calls, i: integer;

function next(c: integer): chair;
begin
  next := c mod chairs
end;

procedure come(name: char);
begin
  who[next(first + waiting)] := name;
  waiting := waiting + 1
end;

procedure leave(var name: char);
begin
  name := who[first];
  first := (first + 1) mod chairs;
  waiting := waiting - 1
end;

procedure turn;
begin
  calls := calls + 1;
  leave(seen[calls])
end;

procedure morning;
begin
  first := 0; waiting := 0; calls := 0;
  come('a'); come('b'); come('c'); turn; turn; come('d'); come('e'); turn; turn; come('f'); turn; turn
end;

begin
  morning;
  for i := 1 to 6 do write(seen[i]);
  writeln(waiting: 2)
end.
