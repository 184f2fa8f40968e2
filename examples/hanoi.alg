_begin _comment The towers of Hanoi with four discs: recursion with parameters by value, and all parameters numbers;
  _integer moves;
  _procedure move(discs, from, to, by); _value discs, from, to, by; _integer discs, from, to, by;
    _if discs > 0 _then
    _begin
      move(discs - 1, from, by, to);
      moves := moves + 1;
      outinteger(discs); outtext({: }); outinteger(from); outtext({ to }); outinteger(to); outcr;
      move(discs - 1, by, to, from)
    _end move;
  move(4, 1, 3, 2);
  outinteger(moves); outtext({ moves}); outcr
_end
