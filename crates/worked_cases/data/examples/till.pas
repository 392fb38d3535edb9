program till(output);
var coins: integer;

procedure fifty;
begin
  coins := coins + 50
end;

procedure twenty;
begin
  coins := coins + 20
end;

procedure seventy;
begin
  fifty;
  twenty
end;

procedure five;
begin
  coins := coins + 50
end;

procedure double;
begin
  coins := coins + coins + 1
end;

begin
  coins := 0;
  seventy;
  seventy;
  five;
  double;
  writeln(coins)
end.
