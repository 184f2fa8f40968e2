_begin _comment Digits of pi by the spigot of S. Rabinowitz and S. Wagon: whole numbers alone, in an array whose
  length follows from how many digits are wanted;
  _integer wanted, length;
  wanted := ininteger; length := 10 * wanted _div 3 + 1;
  _begin
    _integer i, j, nines, held, q, x;
    _integer _array a[1:length];
    _procedure give(digit); _value digit; _integer digit;
      outinteger(digit);
    _for i := 1 _step 1 _until length _do a[i] := 2;
    held := -1;
    _for j := 1 _step 1 _until wanted _do
    _begin
      q := 0;
      _for i := length _step -1 _until 1 _do
      _begin
        x := 10 * a[i] + q * i;
        q := x _div (2 * i - 1);
        a[i] := x - q * (2 * i - 1)
      _end;
      a[1] := q - q _div 10 * 10; q := q _div 10;
      _if q = 9 _then nines := nines + 1 _else
      _begin
        _if held >= 0 _then give(held + q _div 10);
        _for i := 1 _step 1 _until nines _do give(_if q = 10 _then 0 _else 9);
        nines := 0;
        held := q - q _div 10 * 10
      _end
    _end;
    give(held); outcr
  _end
_end
# 33
