_begin _comment Big numbers in arrays: factorials up to 30, with six digits in each element;
  _integer size, n, base, carry, i, part;
  size := 8; base := 1000000;
  _begin
    _integer _array digit[1:size];
    _procedure print;
    _begin
      _integer i, top, power;
      _for i := 1 _step 1 _until size _do
        _if digit[i] <> 0 _then top := i;
      outinteger(digit[top]);
      _for i := top - 1 _step -1 _until 1 _do
        _for power := base _div 10, power _div 10 _while power > 0 _do
          outinteger(digit[i] _div power - digit[i] _div power _div 10 * 10)
    _end print;
    digit[1] := 1;
    _for n := 1 _step 1 _until 30 _do
    _begin
      carry := 0;
      _for i := 1 _step 1 _until size _do
      _begin
        part := digit[i] * n + carry;
        carry := part _div base;
        digit[i] := part - carry * base
      _end;
      _if n _div 5 * 5 = n _then
      _begin
        outinteger(n); outtext({! = }); print; outcr
      _end
    _end
  _end
_end
