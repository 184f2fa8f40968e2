_begin _comment Backtracking with a go to out of recursion: some of the weights are to add up to a sum. When they
  do, the go to leaves all activations of try at once, however deep they are;
  _integer n, wanted, tries, i;
  n := ininteger; wanted := ininteger;
  _begin
    _integer _array weight[1:n];
    _boolean _array taken[1:n];
    _procedure try(k, rest); _value k, rest; _integer k, rest;
    _begin
      tries := tries + 1;
      _if rest = 0 _then _goto found;
      _if k <= n _and rest > 0 _then
      _begin
        taken[k] := _true; try(k + 1, rest - weight[k]);
        taken[k] := _false; try(k + 1, rest)
      _end
    _end try;
    _for i := 1 _step 1 _until n _do weight[i] := ininteger;
    try(1, wanted);
    outtext({there is no such choice}); outcr; _goto finish;
    found: outinteger(wanted); outtext({ =});
    _for i := 1 _step 1 _until n _do
      _if taken[i] _then
      _begin
        outchar(32); outinteger(weight[i])
      _end;
    outtext({ after }); outinteger(tries); outtext({ tries}); outcr;
    finish:
  _end
_end
# 8, 101, 11 17 23 31 41 53 59 61
