program wordcount(input, output);
var words: integer;

procedure word;
begin
  words := words + 1
end;

procedure line;
var c, last: char;
begin
  last := ' ';
  while not eoln do
    begin
      read(c);
      if (c = ' ') and (last <> ' ') then word;
      last := c
    end;
  readln
end;

begin
  words := 0;
  while not eof do line;
  writeln(words)
end.
