program weekdays(output);
type day = (sunday, monday, tuesday, wednesday, thursday, friday, saturday);
var moon, wall, today: day;

function named(n: integer): day;
var d: day; i: integer;
begin
  d := sunday;
  for i := 1 to n mod 7 do d := succ(d);
  named := d
end;

function monthshift(m: integer): integer;
begin
  case m of
    1, 10: monthshift := 0;
    2, 3, 11: monthshift := 3;
    4, 7: monthshift := 6;
    5: monthshift := 1;
    6: monthshift := 4;
    8: monthshift := 2;
    9, 12: monthshift := 5
  end
end;

function yearshift(y: integer): integer;
begin
  yearshift := (y - 1900) + (y - 1900) div 4
end;

{ of a date from March 1900 to the end of 1999 }
function weekday(d, m, y: integer): day;
begin
  weekday := named(d + monthshift(m) + yearshift(y))
end;

procedure look;
begin
  moon := weekday(20, 7, 1969);
  wall := weekday(13, 8, 1961);
  today := weekday(9, 11, 1989)
end;

begin
  look;
  writeln(ord(moon): 2, ord(wall): 2, ord(today): 2)
end.
