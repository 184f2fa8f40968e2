_begin _comment The integer root of a monotone function by bisection. The function is a formal procedure with a
  parameter, and the exit for a wrong interval is a formal label;
  _integer steps;
  _integer _procedure root(f, low, high, none); _value low, high; _integer low, high; _integer _procedure f; _label none;
  _begin
    _integer middle;
    _if f(low) > 0 _or f(high) <= 0 _then _goto none;
    steps := 0;
    halve: _if high - low > 1 _then
    _begin
      steps := steps + 1;
      middle := (low + high) _div 2;
      _if f(middle) > 0 _then high := middle _else low := middle;
      _goto halve
    _end;
    root := low
  _end root;
  _integer _procedure square(x); _value x; _integer x; square := x * x - 1000000;
  _integer _procedure cube(x); _value x; _integer x; cube := x ^ 3 - 2000;
  _procedure report(what, value); _string what; _integer value;
  _begin
    outtext(what); outinteger(value); outtext({ after }); outinteger(steps); outtext({ steps}); outcr
  _end report;
  report({square root of 1000000: }, root(square, 0, 700000, wrong));
  report({cube root of 2000, rounded down: }, root(cube, 0, 1000, wrong));
  report({no root between 0 and 10: }, root(square, 0, 10, wrong));
  wrong: outtext({no change of sign}); outcr
_end
