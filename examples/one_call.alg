_begin _comment The product of two matrices as one procedure call, after the General Problem Solver of D. E. Knuth
  and J. N. Merner: the controlled variable, the place that is assigned and the value are all parameters by name.
  The program has no other for statement;
  _integer i, j, k, none;
  _integer _array a, b, c[1:3, 1:3];
  _integer _procedure solve(i, n, z, v); _value n; _integer i, n, z, v;
  _begin
    _for i := 1 _step 1 _until n _do z := v;
    solve := 0
  _end solve;
  _integer _procedure print(value, last); _value value, last; _integer value; _boolean last;
  _begin
    outinteger(value); outchar(_if last _then 10 _else 32)
  _end print;
  solve(i, 3, none, solve(j, 3, a[i, j], i + j) + solve(j, 3, b[i, j], i * j));
  solve(i, 3, none, solve(j, 3, none, solve(k, 3, c[i, j], c[i, j] + a[i, k] * b[k, j])));
  solve(i, 3, none, solve(j, 3, none, print(c[i, j], j = 3)))
_end
