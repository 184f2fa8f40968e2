_begin _comment Sorting by a heap, after R. W. Floyd's treesort (Algorithm 245): siftup lets one element sink in a
  tree that is kept in an array;
  _integer n, i, t;
  n := ininteger;
  _begin
    _integer _array m[1:n];
    _procedure siftup(i, n); _value i, n; _integer i, n;
    _begin
      _integer copy, j;
      copy := m[i];
      loop: j := 2 * i;
      _if j <= n _then
      _begin
        _if j < n _then
        _begin
          _if m[j + 1] > m[j] _then j := j + 1
        _end;
        _if m[j] > copy _then
        _begin
          m[i] := m[j]; i := j; _goto loop
        _end
      _end;
      m[i] := copy
    _end siftup;
    _for i := 1 _step 1 _until n _do m[i] := ininteger;
    _for i := n _div 2 _step -1 _until 2 _do siftup(i, n);
    _for i := n _step -1 _until 2 _do
    _begin
      siftup(1, i);
      t := m[1]; m[1] := m[i]; m[i] := t
    _end;
    _for i := 1 _step 1 _until n _do
    _begin
      outinteger(m[i]); outchar(_if i = n _then 10 _else 32)
    _end
  _end
_end
# 15, 8 6 7 5 3 0 9 -8 61 17 4 -2 44 10 1
