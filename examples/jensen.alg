_begin _comment Jensen's device twice over: a double sum of 200 by 200 terms, each evaluated by name;
  _integer i, j;
  _integer _procedure sum(k, l, u, t); _value l, u; _integer k, l, u, t;
  _begin
    _integer s;
    s := 0;
    _for k := l _step 1 _until u _do s := s + t;
    sum := s
  _end;
  outinteger(sum(i, 1, 200, sum(j, 1, 200, i * j))); outcr
_end
