_begin _comment Pascal's triangle in one array, each row made from the one before it, from the right so that no
  number is needed twice;
  _integer n, row, k;
  n := 10;
  _begin
    _integer _array c[0:n];
    _procedure print(value, width); _value value, width; _integer value, width;
    _begin
      _integer rest;
      _for rest := value, rest _div 10 _while rest > 0 _do width := width - 1;
      _for rest := 1 _step 1 _until width _do outchar(32);
      outinteger(value)
    _end print;
    c[0] := 1;
    _for row := 0 _step 1 _until n _do
    _begin
      _for k := 1 _step 1 _until 2 * (n - row) _do outchar(32);
      _for k := 0 _step 1 _until row _do print(c[k], 4);
      outcr;
      _for k := _if row < n _then row + 1 _else row _step -1 _until 1 _do c[k] := c[k] + c[k - 1]
    _end
  _end
_end
