_begin _comment Strict order: operands, subscripts and left parts are taken from left to right, also where they have
  side effects, and both operands of _and and _or are always evaluated. Each call of see prints its number;
  _integer x;
  _integer _array a[0:20];
  _integer _procedure see(n); _value n; _integer n;
  _begin
    outchar(32); outinteger(n); see := n
  _end see;
  _boolean _procedure asked(n, answer); _value n, answer; _integer n; _boolean answer;
  _begin
    outchar(32); outinteger(n); asked := answer
  _end asked;
  x := see(1) + see(2) * see(3); outcr;
  a[see(4)] := a[see(5)] := see(6); outcr;
  _if asked(7, _false) _and asked(8, _true) _then outtext({ both});
  outcr;
  x := 10; x := x + see(9) - x; outcr;
  outchar(32); outinteger(x + a[4] + a[5]); outcr
_end
