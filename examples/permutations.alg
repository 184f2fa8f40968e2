_begin _comment All permutations of 1 to n by exchanges in place, each handed to a formal procedure. The work is
  passed as a parameter, so the same generator prints the permutations and counts those without a fixed point;
  _integer n, printed, deranged;
  n := 4;
  _begin
    _integer _array p[1:n];
    _integer i;
    _procedure permute(k, work); _value k; _integer k; _procedure work;
    _begin
      _integer j;
      _procedure exchange;
      _begin
        _integer t;
        t := p[k]; p[k] := p[j]; p[j] := t
      _end exchange;
      _if k > n _then work _else
        _for j := k _step 1 _until n _do
        _begin
          exchange; permute(k + 1, work); exchange
        _end
    _end permute;
    _procedure print;
    _begin
      _integer m;
      _for m := 1 _step 1 _until n _do outinteger(p[m]);
      printed := printed + 1;
      outchar(_if (printed _div 6) * 6 = printed _then 10 _else 32)
    _end print;
    _procedure count;
    _begin
      _integer m, fixed;
      _for m := 1 _step 1 _until n _do
        _if p[m] = m _then fixed := fixed + 1;
      _if fixed = 0 _then deranged := deranged + 1
    _end count;
    _for i := 1 _step 1 _until n _do p[i] := i;
    permute(1, print);
    permute(1, count);
    outinteger(deranged); outtext({ without a fixed point}); outcr
  _end
_end
