PROGRAM Highest;
VAR x: Integer;
BEGIN
  x := 2147483647;
  x := x + 0;
  x := x + 1
END.
