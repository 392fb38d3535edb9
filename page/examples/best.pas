program marks(output);
{ Prints the pupil with the best mark of a form. }
const pupils = 3;
type name = packed array [1..6] of char;
     pupil = record called: name; mark: integer; passed: Boolean end;
     form = array [1..pupils] of pupil;
var all: form;

{ Puts one pupil in; 10 is enough to pass. }
procedure enter(var one: pupil; called: name; mark: integer);
begin
  one.called := called;
  one.mark := mark;
  one.passed := mark >= 10
end;

{ Puts the whole form in. }
procedure fill;
begin
  enter(all[1], 'Ada   ', 17);
  enter(all[2], 'Blaise', 9);
  enter(all[3], 'Niklas', 12)
end;

{ Whether the first pupil has the better mark. }
function better(first, second: pupil): Boolean;
begin
  better := first.mark < second.mark
end;

{ The number of the pupil with the best mark. }
function best: integer;
var next, found: integer;
begin
  found := 1;
  for next := 2 to pupils do
    if better(all[next], all[found]) then found := next;
  best := found
end;

{ Prints one pupil. }
procedure show(number: integer);
begin
  writeln(all[number].called, ' ', all[number].mark: 1)
end;

begin
  fill;
  show(best)
end.
