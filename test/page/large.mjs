// Programs that take many steps or make many calls, for `same` and the figures of speed.
const program = (name, text, budget = '4000000') => ({ name, source: text, budget });

export const LARGE = [
  program('a lesson', `program change;
var coins: integer;
procedure fifty;
begin coins := coins + 50 end;
procedure twenty;
begin coins := coins + 2 end;
procedure seventy;
begin fifty; twenty end;
begin
  coins := 0;
  seventy
end.
`, '1000000'),
  program('a loop of 1,000,000 steps', `program l(output);
var i, s: integer;
begin
  i := 0; s := 0;
  while i < 41000 do begin i := i + 1; s := s + i mod 7 end;
  writeln(s)
end.
`, '1000000'),
  program('a loop', `program l(output);
var i, s: integer;
begin
  i := 0; s := 0;
  while i < 165000 do begin i := i + 1; s := s + i mod 7 end;
  writeln(s)
end.
`),
  program('an array', `program a(output);
var a: array [1..1000] of integer; i, j: integer;
begin
  for j := 1 to 200 do for i := 1 to 1000 do a[i] := i * j mod 1000;
  writeln(a[7])
end.
`),
  program('200,000 calls', `program f(output);
var i, x: integer;
procedure q;
begin x := x + 1 end;
begin
  x := 0;
  for i := 1 to 200000 do q;
  writeln(x)
end.
`),
  program('functions', `program g(output);
var i, x: integer;
function f(n: integer): integer;
begin f := n + 1 end;
begin
  x := 0;
  for i := 1 to 90000 do x := f(f(i)) mod 1000;
  writeln(x)
end.
`),
  program('80,000 deep, twice', `program d(output);
var i, x: integer;
procedure q(n: integer);
begin x := x + 1; if n > 0 then q(n - 1) end;
begin
  x := 0;
  for i := 1 to 2 do q(79999);
  writeln(x)
end.
`),
  program('500,000 calls', `program f(output);
var i: integer;
procedure q;
begin end;
begin
  for i := 1 to 600000 do q
end.
`),
];

const nest = (before, after, times, middle = '') => before.repeat(times) + middle + after.repeat(times);

// Sources that nest about as deep as a source may, and calls that do.
export const DEEP = [
  program('198 repeats', `program p; begin ${nest('repeat ', 'until true ', 198)}end.`),
  program('190 parentheses', `program p; var x: integer; begin x := ${nest('(', ')', 190, '1')} end.`),
  program('98 compounds in ifs', `program p; begin ${nest('if true then begin ', 'end ', 98)}end.`),
  program('95 records', `program p; var x: ${nest('record a: ', ' end', 95, 'integer')}; begin end.`),
  program('60 routines', `program p; ${Array.from({ length: 60 }, (_, i) => `procedure q${i}; `).join('')}${'begin end; '.repeat(60)}begin end.`),
  program('190 nots', `program p; var x: boolean; begin x := ${'not '.repeat(190)}true end.`),
  program('150 indices', `program p; var a: array [1..1] of integer; begin a[1] := 1; a[1] := ${nest('a[', ']', 150, '1')} end.`),
  program('80,000 calls', `program d; procedure q(n: integer); begin if n > 0 then q(n - 1) end; begin q(79999) end.`),
];
