_begin _comment Who stands last: people in a circle as a linked list in an array, of whom each k-th leaves;
  _integer n, k, i, before;
  n := ininteger; k := ininteger;
  _begin
    _integer _array next[1:n];
    _for i := 1 _step 1 _until n _do next[i] := _if i = n _then 1 _else i + 1;
    before := n;
    round: _for i := 1 _step 1 _until k - 1 _do before := next[before];
    outinteger(next[before]);
    _if next[before] <> before _then
    _begin
      outchar(32); next[before] := next[next[before]]; _goto round
    _end;
    outtext({ is the last}); outcr
  _end
_end
# 41 3
