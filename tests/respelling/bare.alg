_begin _comment bare words, with "strings" in quotes;
  _integer i, total sum;
  _boolean _procedure even(n); _value n; _integer n;
    even := n _div 2 * 2 = n;
  _for i := 1 _step 1 _until 10 _do
    _if even(i) _and _not(i = 4) _then total sum := total sum + i ^ 2;
  _if total sum <> 0 _then _goto shown _else _goto finish;
  shown: outtext({the sum is }); outinteger(total sum); outcr;
  finish:
_end of the program, which is bare
