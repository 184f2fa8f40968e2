_begin _comment Ackermann's function: deep recursion with little else. The report tells the steps and the greatest
  number of stack words;
  _integer m;
  _integer _procedure a(m, n); _value m, n; _integer m, n;
    a := _if m = 0 _then n + 1 _else a(m - 1, _if n = 0 _then 1 _else a(m, n - 1));
  _for m := 0 _step 1 _until 3 _do
  _begin
    outinteger(a(m, 3)); outcr
  _end
_end
