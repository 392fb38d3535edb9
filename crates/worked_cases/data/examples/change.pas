program change;
var coins: integer;
procedure fifty;
begin coins := coins + 50 end;
procedure twenty;
begin coins := coins + 2 end;
procedure seventy;
begin fifty; twenty end;
begin
  coins := 0;
  seventy
end.
