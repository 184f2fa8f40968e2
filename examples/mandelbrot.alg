_begin _comment Text art: the Mandelbrot set in whole numbers, where 1000 stands for 1. The depth of each place
  picks a character;
  _integer row, column, depth, x, y, re, im, t;
  _for row := -9 _step 1 _until 9 _do
  _begin
    _for column := -42 _step 1 _until 14 _do
    _begin
      re := column * 50; im := row * 120;
      x := y := depth := 0;
      again: _if depth < 24 _and x * x + y * y < 4000000 _then
      _begin
        t := (x * x - y * y) _div 1000 + re;
        y := 2 * x * y _div 1000 + im;
        x := t;
        depth := depth + 1;
        _goto again
      _end;
      outchar(_if depth = 24 _then 35 _else _if depth > 9 _then 43
        _else _if depth > 5 _then 45 _else _if depth > 3 _then 58 _else 46)
    _end;
    outcr
  _end
_end
