_begin _comment Roman numerals. Strings are parameters, and a table is a procedure that hands each row to the same
  formal procedure;
  _integer n, rest;
  _procedure table(row); _procedure row;
  _begin
    row(1000, {M}); row(900, {CM}); row(500, {D}); row(400, {CD});
    row(100, {C}); row(90, {XC}); row(50, {L}); row(40, {XL});
    row(10, {X}); row(9, {IX}); row(5, {V}); row(4, {IV}); row(1, {I})
  _end table;
  _procedure subtract(value, sign); _value value; _integer value; _string sign;
  _begin
    again: _if rest >= value _then
    _begin
      outtext(sign); rest := rest - value; _goto again
    _end
  _end subtract;
  _for n := ininteger _while n > 0 _do
  _begin
    rest := n;
    outinteger(n); outtext({ = });
    table(subtract);
    outcr
  _end
_end
# 4 9 14 40 90 400 1963 1988 2026 0
