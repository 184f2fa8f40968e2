_begin _comment Formal procedures with parameters: fold takes any function of two numbers. Which procedure stands
  behind the formal, and whether the actuals fit, is known only when the call is executed;
  _integer i;
  _integer _array a[1:6];
  _integer _procedure fold(f, v, n, start); _value n, start; _integer n, start; _integer _array v; _integer _procedure f;
  _begin
    _integer k, r;
    r := start;
    _for k := 1 _step 1 _until n _do r := f(r, v[k]);
    fold := r
  _end fold;
  _integer _procedure sum(x, y); _value x, y; _integer x, y; sum := x + y;
  _integer _procedure product(x, y); _value x, y; _integer x, y; product := x * y;
  _integer _procedure larger(x, y); _value x, y; _integer x, y; larger := _if x > y _then x _else y;
  _integer _procedure decimal(x, y); _value x, y; _integer x, y; decimal := 10 * x + y;
  _procedure twice(f, g); _procedure f, g;
  _begin
    f(g); f(g)
  _end twice;
  _procedure say(what); _procedure what;
  _begin
    outtext({it says }); what; outcr
  _end say;
  _procedure hello; outtext({hello});
  _for i := 1 _step 1 _until 6 _do a[i] := ininteger;
  outtext({sum }); outinteger(fold(sum, a, 6, 0)); outcr;
  outtext({product }); outinteger(fold(product, a, 6, 1)); outcr;
  outtext({largest }); outinteger(fold(larger, a, 6, -1000)); outcr;
  outtext({as digits }); outinteger(fold(decimal, a, 6, 0)); outcr;
  twice(say, hello)
_end
# 3 1 4 1 5 9
