_begin _comment Text art: where Pascal's triangle is odd. Only the Boolean row is kept, and _equiv adds without
  carry;
  _integer n, row, k;
  n := 15;
  _begin
    _boolean _array odd[-1:n];
    odd[0] := _true;
    _for row := 0 _step 1 _until n _do
    _begin
      _for k := row _step 1 _until n - 1 _do outchar(32);
      _for k := 0 _step 1 _until row _do
      _begin
        outchar(_if odd[k] _then 42 _else 32);
        _if k < row _then outchar(32)
      _end;
      outcr;
      _for k := n _step -1 _until 0 _do odd[k] := _not (odd[k] _equiv odd[k - 1])
    _end
  _end
_end
