_begin _comment J. H. Conway's game of life on a torus: a glider in five generations. Two arrays are passed in turn
  to the same procedure;
  _integer n, i, j, c;
  n := 8;
  _begin
    _boolean _array a, b[0:n - 1, 0:n - 1];
    _integer _procedure wrap(x); _value x; _integer x;
      wrap := _if x < 0 _then x + n _else _if x < n _then x _else x - n;
    _procedure generation(old, new); _boolean _array old, new;
    _begin
      _integer i, j, u, v, alive;
      _for i := 0 _step 1 _until n - 1 _do
        _for j := 0 _step 1 _until n - 1 _do
        _begin
          alive := 0;
          _for u := i - 1, i, i + 1 _do
            _for v := j - 1, j, j + 1 _do
              _if old[wrap(u), wrap(v)] _then alive := alive + 1;
          new[i, j] := alive = 3 _or old[i, j] _and alive = 4
        _end
    _end generation;
    _procedure print(world); _boolean _array world;
    _begin
      _integer i, j;
      _for i := 0 _step 1 _until n - 1 _do
      _begin
        _for j := 0 _step 1 _until n - 1 _do outchar(_if world[i, j] _then 79 _else 46);
        outcr
      _end;
      outcr
    _end print;
    _for i := 0 _step 1 _until n - 1 _do
      _for j := 0 _step 1 _until n _do
      _begin
        c := inchar;
        _if j < n _then a[i, j] := c = 79
      _end;
    print(a); generation(a, b); generation(b, a); print(a); generation(a, b); generation(b, a); print(a)
  _end
_end
#........
..O.....
...O....
.OOO....
........
........
........
........
