_begin _comment How many turns the numbers below 30 take until they are 1, where each turn halves an even number and
  makes 3 * k + 1 of an odd one. A for list mixes an expression with an element with _while, whose expression is
  conditional;
  _integer n, k, turns, longest, start;
  _boolean _procedure even(x); _value x; _integer x;
    even := x _div 2 * 2 = x;
  _for n := 1 _step 1 _until 29 _do
  _begin
    turns := 0;
    _for k := n, (_if even(k) _then k _div 2 _else 3 * k + 1) _while k > 1 _do turns := turns + 1;
    _if turns > longest _then
    _begin
      longest := turns; start := n;
      outinteger(n); outtext({ takes }); outinteger(turns); outcr
    _end
  _end
_end
