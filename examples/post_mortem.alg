_begin _comment An alarm and what mortem=yes tells of it: the line that stopped, and from the inside outward all
  live activations, each with the line that entered it. Here halve is handed an expression, to which nothing can be
  assigned;
  _integer n;
  _procedure halve(x); _integer x;
    x := x _div 2;
  _procedure reduce(k); _value k; _integer k;
    _if k > 0 _then reduce(k - 1) _else
      halve(n + 1);
  n := 7;
  halve(n);
  outinteger(n); outcr;
  reduce(2)
_end
