_begin _comment How many ways there are to place seven queens so that none attacks another;
  _integer n, solutions;
  n := 7;
  _begin
    _boolean _array column[1:n], up[2:2 * n], down[1 - n:n - 1];
    _procedure place(row); _value row; _integer row;
    _begin
      _integer c;
      _for c := 1 _step 1 _until n _do
        _if _not (column[c] _or up[row + c] _or down[row - c]) _then
        _begin
          column[c] := up[row + c] := down[row - c] := _true;
          _if row = n _then solutions := solutions + 1 _else place(row + 1);
          column[c] := up[row + c] := down[row - c] := _false
        _end
    _end place;
    place(1)
  _end;
  outinteger(solutions); outcr
_end
