program wordcount(input, output);
var words, lines, letters: integer;

procedure word;
begin
  words := words + 1
end;

procedure letter;
begin
  letters := letters + 1
end;

procedure line;
var c, last: char;
begin
  last := ' ';
  while not eoln do
    begin
      read(c);
      if c <> ' ' then letter;
      if (c = ' ') and (last <> ' ') then word;
      last := c
    end;
  if last <> ' ' then word;
  readln;
  lines := lines + 1
end;

procedure text;
begin
  words := 0; lines := 0; letters := 0;
  while not eof do line
end;

begin
  text;
  writeln(lines: 3, words: 3, letters: 3)
end.
