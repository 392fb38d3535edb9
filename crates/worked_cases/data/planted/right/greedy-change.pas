program change(output);
var left, coins, fifties, twenties, tens, fives: integer;

procedure count(var coin: integer; n: integer);
begin
  coin := n;
  coins := coins + n
end;

procedure give(var coin: integer; worth: integer);
begin
  count(coin, left div worth);
  left := left mod worth
end;

procedure pay(price, paid: integer);
begin
  left := paid - price;
  coins := 0;
  give(fifties, 50);
  give(twenties, 20);
  give(tens, 10);
  give(fives, 5)
end;

begin
  pay(105, 200);
  writeln(fifties: 2, twenties: 2, tens: 2, fives: 2, coins: 3)
end.
