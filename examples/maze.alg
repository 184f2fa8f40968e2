_begin _comment The way out of a maze. walk tries the four directions by recursion, and at the exit a go to leaves
  all of it. What was walked in vain is forgotten on the way back;
  _integer rows, columns, i, j, c;
  _integer _array place[1:20, 1:40];
  _procedure walk(i, j); _value i, j; _integer i, j;
    _if place[i, j] = 69 _then _goto out _else _if place[i, j] = 32 _then
    _begin
      _integer d;
      place[i, j] := 46;
      _for d := -1, 1 _do
      _begin
        walk(i, j + d); walk(i + d, j)
      _end;
      place[i, j] := 32
    _end walk;
  rows := i := 1;
  _for c := inchar _while c >= 0 _do
    _if c = 10 _then
    _begin
      i := i + 1; j := 0
    _end
    _else
    _begin
      j := j + 1; place[i, j] := c; rows := i;
      _if j > columns _then columns := j
    _end;
  walk(2, 2);
  outtext({there is no way out}); outcr;
  out: _for i := 1 _step 1 _until rows _do
  _begin
    _for j := 1 _step 1 _until columns _do outchar(place[i, j]);
    outcr
  _end
_end
#XXXXXXXXXXXXXXX
X     X       X
XXXXX X XXXXX X
X   X X X   X X
X X X   X X X X
X X XXXXX X X X
X X       X   X
X XXXXXXXXXXX X
X             E
XXXXXXXXXXXXXXX
