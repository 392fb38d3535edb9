program roman(output);
type word = packed array [1..6] of char;
var old, young, age: integer;

function worth(c: char): integer;
begin
  case c of
    'I': worth := 1;
    'V': worth := 5;
    'X': worth := 10;
    'L': worth := 50;
    'C': worth := 100;
    ' ': worth := 0
  end
end;

function value(w: word): integer;
var i, sum: integer;
begin
  sum := worth(w[6]);
  for i := 1 to 5 do
    if worth(w[i]) < worth(w[i + 1]) then sum := sum - worth(w[i])
    else sum := sum + worth(w[i]);
  value := sum
end;

procedure ages;
begin
  young := value('XIX   ');
  old := value('XLVI  ');
  age := value('VIII  ')
end;

begin
  ages;
  writeln(young: 3, old: 4, age: 3)
end.
