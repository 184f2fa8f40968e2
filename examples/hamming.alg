_begin _comment R. W. Hamming's exercise, as E. W. Dijkstra made it known: in rising order all numbers that are
  products of twos, threes and fives;
  _integer n, i, two, three, five;
  n := 30;
  _begin
    _integer _array q[1:n];
    _integer _procedure least(x, y); _value x, y; _integer x, y;
      least := _if x < y _then x _else y;
    q[1] := 1; two := three := five := 1;
    _for i := 2 _step 1 _until n _do
    _begin
      q[i] := least(2 * q[two], least(3 * q[three], 5 * q[five]));
      _if q[i] = 2 * q[two] _then two := two + 1;
      _if q[i] = 3 * q[three] _then three := three + 1;
      _if q[i] = 5 * q[five] _then five := five + 1
    _end;
    _for i := 1 _step 1 _until n _do
    _begin
      outinteger(q[i]); outchar(_if i = n _then 10 _else 32)
    _end
  _end
_end
