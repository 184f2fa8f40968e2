_begin _comment Knuth's test of recursion and of parameters by name, "man or boy", with k = 12. It needs many stack
  words;
  _integer _procedure A(k, x1, x2, x3, x4, x5); _value k;
    _integer k, x1, x2, x3, x4, x5;
  _begin
    _integer _procedure B;
    _begin
      k := k - 1;
      B := A := A(k, B, x1, x2, x3, x4)
    _end;
    _if k <= 0 _then A := x4 + x5 _else B
  _end;
  outinteger(A(12, 1, -1, -1, 1, 0)); outcr
_end
