program weather(input, output);
var days, sum, least, greatest, mean, frost: integer;

procedure lower(t: integer);
begin
  if (days = 0) or (t < least) then least := t
end;

procedure raise(t: integer);
begin
  if (days = 0) or (t > greatest) then greatest := t
end;

procedure add(t: integer);
begin
  sum := sum + t
end;

procedure freeze(t: integer);
begin
  if t < 0 then frost := frost + 1
end;

procedure day;
var t: integer;
begin
  read(t);
  lower(t); raise(t); add(t); freeze(t);
  days := days + 1
end;

procedure week;
begin
  days := 0; sum := 0; least := 0; greatest := 0; frost := 0;
  while days < 6 do day;
  mean := sum div days
end;

begin
  week;
  writeln(least: 4, greatest: 4, mean: 4, frost: 4)
end.
