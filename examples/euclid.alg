_begin _comment Euclid's algorithm with the numbers x and y for which a * x + b * y is the greatest common divisor.
  The two results come through parameters by name;
  _integer a, b, d, x, y;
  _integer _procedure gcd(a, b, x, y); _value a, b; _integer a, b, x, y;
    _if b = 0 _then
    _begin
      gcd := a; x := 1; y := 0
    _end
    _else
    _begin
      _integer u, v;
      gcd := gcd(b, a - a _div b * b, u, v);
      x := v; y := u - a _div b * v
    _end gcd;
  _for a := ininteger _while a <> 0 _do
  _begin
    b := ininteger; d := gcd(a, b, x, y);
    outinteger(d); outtext({ = }); outinteger(a); outtext({ * }); outinteger(x);
    outtext({ + }); outinteger(b); outtext({ * }); outinteger(y); outcr
  _end
_end
# 1963 1960, 240 46, 12 18, 0
