_begin _comment Four ways to sort, handed as formal procedures with parameters to one procedure that tries them on
  the same numbers and counts the comparisons. Arrays are passed as what they are, and not copied;
  _integer n, compared, i;
  n := ininteger;
  _begin
    _integer _array given, a[1:n];
    _boolean _procedure less(x, y); _value x, y; _integer x, y;
    _begin
      compared := compared + 1; less := x < y
    _end less;
    _procedure exchange(v, i, j); _value i, j; _integer i, j; _integer _array v;
    _begin
      _integer t;
      t := v[i]; v[i] := v[j]; v[j] := t
    _end exchange;
    _procedure insertion(v, n); _value n; _integer n; _integer _array v;
    _begin
      _integer i, j, x;
      _for i := 2 _step 1 _until n _do
      _begin
        x := v[i];
        _for j := i - 1, j - 1 _while j > 0 _do
        _begin
          _if _not less(x, v[j]) _then _goto placed;
          v[j + 1] := v[j]
        _end;
        placed: v[j + 1] := x
      _end
    _end insertion;
    _procedure selection(v, n); _value n; _integer n; _integer _array v;
    _begin
      _integer i, j, least;
      _for i := 1 _step 1 _until n - 1 _do
      _begin
        least := i;
        _for j := i + 1 _step 1 _until n _do
          _if less(v[j], v[least]) _then least := j;
        exchange(v, i, least)
      _end
    _end selection;
    _procedure shell(v, n); _value n; _integer n; _integer _array v;
    _begin
      _integer gap, i, j;
      _for gap := n _div 2, gap _div 2 _while gap > 0 _do
        _for i := gap + 1 _step 1 _until n _do
        _begin
          j := i;
          sink: _if j > gap _then
          _begin
            _if less(v[j], v[j - gap]) _then
            _begin
              exchange(v, j, j - gap); j := j - gap; _goto sink
            _end
          _end
        _end
    _end shell;
    _procedure bubble(v, n); _value n; _integer n; _integer _array v;
    _begin
      _integer i;
      _boolean moved;
      again: moved := _false;
      _for i := 2 _step 1 _until n _do
        _if less(v[i], v[i - 1]) _then
        _begin
          exchange(v, i, i - 1); moved := _true
        _end;
      _if moved _then _goto again
    _end bubble;
    _procedure try(name, sort); _string name; _procedure sort;
    _begin
      _for i := 1 _step 1 _until n _do a[i] := given[i];
      compared := 0;
      sort(a, n);
      outtext(name);
      _for i := 1 _step 1 _until n _do
      _begin
        outchar(32); outinteger(a[i])
      _end;
      outtext({, }); outinteger(compared); outtext({ comparisons}); outcr
    _end try;
    _for i := 1 _step 1 _until n _do given[i] := ininteger;
    try({insertion:}, insertion);
    try({selection:}, selection);
    try({shell:    }, shell);
    try({bubble:   }, bubble)
  _end
_end
# 12, 31 -4 15 92 65 35 89 79 32 38 46 26
