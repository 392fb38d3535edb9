program bank(output);
type account = record balance, payments: integer end;
var anna, ben, clara: account;

procedure open(var a: account);
begin
  a.balance := 0;
  a.payments := 0
end;

procedure note(var a: account);
begin
  a.payments := a.payments + 1
end;

procedure deposit(var a: account; amount: integer);
begin
  a.balance := a.balance + amount;
  note(a)
end;

procedure withdraw(var a: account; amount: integer);
begin
  if amount <= a.balance then
    begin
      a.balance := a.balance - amount;
      note(a)
    end
end;

procedure transfer(var a, b: account; amount: integer);
begin
  withdraw(a, amount);
  deposit(b, amount)
end;

procedure week;
begin
  open(anna); open(ben); open(clara);
  deposit(anna, 100);
  deposit(ben, 40);
  transfer(anna, clara, 30);
  withdraw(ben, 40);
  deposit(clara, 5)
end;

begin
  week;
  writeln(anna.balance: 4, ben.balance: 4, clara.balance: 4)
end.
