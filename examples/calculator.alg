_begin _comment A calculator by recursive descent: expression, term and factor call one another. A line that can't
  be read leaves all of them by a go to, and the next line is taken;
  _integer c, value;
  _procedure skip;
    _for c := inchar _while c = 32 _do;
  _integer _procedure expression;
  _begin
    _integer _procedure factor;
    _begin
      _integer n, sign;
      sign := 1;
      _if c = 45 _then
      _begin
        sign := -1; skip
      _end;
      _if c = 40 _then
      _begin
        skip; n := expression;
        _if c <> 41 _then _goto wrong;
        skip
      _end
      _else
      _begin
        _if c < 48 _or c > 57 _then _goto wrong;
        digits: n := 10 * n + c - 48; skip;
        _if 48 <= c _and c <= 57 _then _goto digits
      _end;
      factor := sign * n
    _end factor;
    _integer _procedure term;
    _begin
      _integer n, right;
      n := factor;
      more: _if c = 42 _then
      _begin
        skip; n := n * factor; _goto more
      _end
      _else _if c = 47 _then
      _begin
        skip; right := factor;
        _if right = 0 _then _goto wrong;
        n := n _div right; _goto more
      _end;
      term := n
    _end term;
    _integer n;
    n := term;
    more: _if c = 43 _then
    _begin
      skip; n := n + term; _goto more
    _end
    _else _if c = 45 _then
    _begin
      skip; n := n - term; _goto more
    _end;
    expression := n
  _end expression;
  next: skip;
  _if c < 0 _then _goto finish;
  value := expression;
  _if c <> 10 _and c >= 0 _then _goto wrong;
  outinteger(value); outcr;
  _goto next;
  wrong: outtext({not an expression}); outcr;
  _for c := c, inchar _while c <> 10 _and c >= 0 _do;
  _goto next;
  finish:
_end
#2 + 3 * 4
(2 + 3) * 4 - -1
100 / 7 / 2
((1)
7 / (3 - 3)
2 * (3 + 4) * (5 + 6)
