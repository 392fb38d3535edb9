program vowels(input, output);
type counts = array ['a'..'z'] of integer;
var count: counts; vowels, others: integer;

function lower(c: char): char;
begin
  if (c >= 'A') and (c <= 'Z') then lower := chr(ord(c) - ord('A') + ord('a'))
  else lower := c
end;

procedure clear;
var c: char;
begin
  for c := 'a' to 'z' do count[c] := 0;
  vowels := 0;
  others := 0
end;

procedure note(c: char);
begin
  if (c >= 'a') and (c <= 'z') then
    begin
      count[c] := count[c] + 1;
      if c in ['a', 'e', 'i', 'o', 'u'] then vowels := vowels + 1
      else others := others + 1
    end
end;

procedure line;
var c: char;
begin
  while not eoln do
    begin
      read(c);
      note(lower(c))
    end
end;

begin
  clear;
  line;
  writeln(vowels: 3, others: 3, count['e']: 3)
end.
