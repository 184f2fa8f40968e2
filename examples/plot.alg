_begin _comment A text plot of misses against places: the data are the 64 numbers that table=yes prints. Each line
  is one number of places, and the last lines that are alike are drawn once;
  _integer places, most, i, shown;
  _integer _array misses[1:64];
  _for places := 1 _step 1 _until 64 _do misses[places] := ininteger;
  most := misses[1];
  _for places := 1 _step 1 _until 64 _do
  _begin
    _if places < 10 _then outchar(32);
    outinteger(places); outchar(32);
    shown := (misses[places] * 60 + most - 1) _div most;
    _for i := 1 _step 1 _until shown _do outchar(42);
    outchar(32); outinteger(misses[places]); outcr;
    _if misses[places] = misses[64] _then _goto finish
  _end;
  finish:
_end
# 1082 201 121 121 121 121 7 7 7 7 7 7 7 7 7 7 7 7 7 7 7 7 7 7 7 7 7 7 7 7 7 7 7 7 7 7 7 7 7 7 7 7 7
7 7 7 7 7 7 7 7 7 7 7 7 7 7 7 7 7 7 7 7 7
