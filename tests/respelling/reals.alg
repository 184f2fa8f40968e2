_begin
  real x;
  x := 3.14 / 2;
  x := 1e5;
  print(x);
  x := sqrt(x)
_end
