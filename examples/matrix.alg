_begin _comment The product of two matrices of 40 by 40, and the sum of all its elements;
  _integer n;
  n := 40;
  _begin
    _integer i, j, k, s, total;
    _integer _array a, b, c[1:n, 1:n];
    _for i := 1 _step 1 _until n _do
      _for j := 1 _step 1 _until n _do
      _begin
        a[i, j] := i + j;
        b[i, j] := i - j
      _end;
    _for i := 1 _step 1 _until n _do
      _for j := 1 _step 1 _until n _do
      _begin
        s := 0;
        _for k := 1 _step 1 _until n _do s := s + a[i, k] * b[k, j];
        c[i, j] := s
      _end;
    total := 0;
    _for i := 1 _step 1 _until n _do
      _for j := 1 _step 1 _until n _do total := total + c[i, j];
    outinteger(total); outcr
  _end
_end
