_begin _comment A magic square of odd order: the numbers go up and to the right, and one down where the place is
  taken;
  _integer n, i, j, k, sum;
  n := ininteger;
  _begin
    _integer _array square[0:n - 1, 0:n - 1];
    _integer _procedure mod(x); _value x; _integer x;
      mod := x + n - (x + n) _div n * n;
    i := 0; j := n _div 2;
    _for k := 1 _step 1 _until n * n _do
    _begin
      _if square[i, j] <> 0 _then
      _begin
        i := mod(i + 2); j := mod(j - 1)
      _end;
      square[i, j] := k;
      i := mod(i - 1); j := mod(j + 1)
    _end;
    _for i := 0 _step 1 _until n - 1 _do
      _for j := 0 _step 1 _until n - 1 _do
      _begin
        _if square[i, j] < 10 _then outchar(32);
        outinteger(square[i, j]); outchar(_if j = n - 1 _then 10 _else 32)
      _end;
    _for i := 0 _step 1 _until n - 1 _do sum := sum + square[i, i];
    outtext({each line adds up to }); outinteger(sum); outcr
  _end
_end
# 5
