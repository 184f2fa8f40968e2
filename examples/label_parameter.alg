_begin _comment A label as a parameter: the procedure divide leaves by the exit that its caller names. The go to
  leaves the activation of divide, so the assignment of the call is never done;
  _integer i, q;
  _integer _array a, b[1:4];
  _integer _procedure divide(x, y, zero); _value x, y; _integer x, y; _label zero;
  _begin
    _if y = 0 _then _goto zero;
    divide := x _div y
  _end divide;
  _for i := 1 _step 1 _until 4 _do
  _begin
    a[i] := ininteger; b[i] := ininteger
  _end;
  i := 0;
  next: i := i + 1;
  _if i > 4 _then _goto finish;
  q := divide(a[i], b[i], no quotient);
  outinteger(a[i]); outtext({ _div }); outinteger(b[i]); outtext({ = }); outinteger(q); outcr;
  _goto next;
  no quotient: outinteger(a[i]); outtext({ has no quotient}); outcr;
  _goto next;
  finish:
_end
# 17 5, -17 5, 3 0, 100 -9
