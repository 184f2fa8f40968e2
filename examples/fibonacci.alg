_begin _comment The twenty-second number of Fibonacci, with a parameter by value;
  _integer _procedure fib(n); _value n; _integer n;
    fib := _if n < 2 _then n _else fib(n - 1) + fib(n - 2);
  outinteger(fib(22)); outcr
_end
