program clock(output);
type time = record hour, minute: integer end;
var slow, fast, night: time;

procedure start(var t: time; hour, minute: integer);
begin
  t.hour := hour;
  t.minute := minute
end;

procedure carry(var t: time);
begin
  t.hour := (t.hour + 1) mod 24
end;

procedure advance(var t: time; minutes: integer);
begin
  t.minute := t.minute + minutes;
  while t.minute >= 60 do
    begin
      t.minute := t.minute - 60;
      carry(t)
    end
end;

procedure timetable;
begin
  start(slow, 8, 15);
  start(fast, 9, 20);
  start(night, 23, 30);
  advance(slow, 100);
  advance(fast, 40);
  advance(night, 95)
end;

procedure show(var t: time);
begin
  writeln(t.hour: 2, ':', t.minute div 10: 1, t.minute mod 10: 1)
end;

begin
  timetable;
  show(slow); show(fast); show(night)
end.
