program invoice(output);
var goods, pieces, off, tax, total: integer;

procedure buy(price, number: integer);
begin
  goods := goods + price * number;
  pieces := pieces + number
end;

procedure basket;
begin
  goods := 0;
  pieces := 0;
  buy(12, 3); buy(5, 4); buy(8, 1)
end;

{ a tenth from 50 on }
procedure rebate(var sum, part: integer);
begin
  part := 0;
  if sum >= 50 then part := sum div 10;
  sum := sum - part
end;

procedure charge(var sum, part: integer);
begin
  part := sum * 20 div 100;
  sum := sum + part
end;

procedure bill;
begin
  basket;
  total := goods;
  rebate(total, off);
  charge(total, tax)
end;

begin
  bill;
  writeln(pieces: 3, goods: 4, off: 4, tax: 4, total: 4)
end.
