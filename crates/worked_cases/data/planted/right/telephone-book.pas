program book(output);
type name = packed array [1..5] of char;
  entry = record who: name; number: integer end;
var entries: array [1..4] of entry; used, i: integer;

function before(a, b: name): Boolean;
begin
  before := a < b
end;

procedure move(from, on: integer);
begin
  entries[on] := entries[from]
end;

procedure enter(who: name; number: integer);
var at: integer; further: Boolean;
begin
  at := used + 1;
  further := used > 0;
  while further do
    if before(who, entries[at - 1].who) then
      begin
        move(at - 1, at);
        at := at - 1;
        further := at > 1
      end
    else further := false;
  entries[at].who := who;
  entries[at].number := number;
  used := used + 1
end;

procedure build;
begin
  used := 0;
  enter('Maria', 17); enter('Anton', 23); enter('Marco', 42); enter('Berta', 30)
end;

begin
  build;
  for i := 1 to used do writeln(entries[i].who, entries[i].number: 3)
end.
