program longest(input, output);
var long, short, length, words: integer;

procedure open;
begin
  length := 0
end;

procedure letter;
begin
  length := length + 1
end;

procedure close;
begin
  if length > 0 then
    begin
      if length > long then long := length;
      if length < short then short := length;
      words := words + 1
    end;
  open
end;

procedure take(c: char);
begin
  if c = ' ' then close else letter
end;

procedure line;
var c: char;
begin
  long := 0; short := maxint; words := 0;
  open;
  while not eoln do
    begin
      read(c);
      take(c)
    end;
  close
end;

begin
  line;
  writeln(words: 2, short: 2, long: 2)
end.
