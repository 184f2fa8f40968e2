_begin _comment The paging experiment. The loop runs over several tracks of the drum, so with few track places each
  turn reads them all again, and with enough places none. The word table=yes prints the transfers for 1 to 64
  places;
  _integer i, s;
  _procedure add(x); _value x; _integer x;
    s := s + x;
  _for i := 1 _step 1 _until 20 _do
  _begin
    add(i); add(i + 1); add(i + 2); add(i + 3);
    add(2 * i); add(2 * i + 1); add(2 * i + 2); add(2 * i + 3);
    add(i * i); add(i * i + 1); add(i * i + 2); add(i * i + 3);
    add(s - i); add(s - 2 * i); add(s _div 3); add(s _div 5);
    _if s > 1000000 _then s := s - s _div 1000000 * 1000000;
    add(i _div 2); add(i _div 3); add(i _div 4); add(i _div 5);
    add(-i); add(-i - 1); add(-i - 2); add(-i - 3)
  _end;
  outinteger(s); outcr
_end
