_begin _comment Quicksort, after C. A. R. Hoare's Algorithms 63 and 64. partition gives its two results through
  parameters by name. The two parts are sorted by recursion;
  _integer n, i;
  n := ininteger;
  _begin
    _integer _array a[1:n];
    _procedure partition(a, m, n, i, j); _value m, n; _integer m, n, i, j; _integer _array a;
    _begin
      _integer x, t;
      x := a[(m + n) _div 2]; i := m; j := n;
      up: _if a[i] < x _then
      _begin
        i := i + 1; _goto up
      _end;
      down: _if a[j] > x _then
      _begin
        j := j - 1; _goto down
      _end;
      _if i <= j _then
      _begin
        t := a[i]; a[i] := a[j]; a[j] := t;
        i := i + 1; j := j - 1
      _end;
      _if i <= j _then _goto up
    _end partition;
    _procedure quicksort(a, m, n); _value m, n; _integer m, n; _integer _array a;
      _if m < n _then
      _begin
        _integer i, j;
        partition(a, m, n, i, j);
        quicksort(a, m, j);
        quicksort(a, i, n)
      _end quicksort;
    _for i := 1 _step 1 _until n _do a[i] := ininteger;
    quicksort(a, 1, n);
    _for i := 1 _step 1 _until n _do
    _begin
      outinteger(a[i]); outchar(_if i = n _then 10 _else 32)
    _end
  _end
_end
# 20, 503 87 512 61 908 170 897 275 653 426 154 509 612 677 765 703 -1 0 87 4
