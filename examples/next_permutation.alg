_begin _comment The next permutation in the order of a dictionary, after E. W. Dijkstra. The letters are data. A
  Boolean function tells whether there was a next one, and changes the array that is its parameter;
  _integer length, c, shown;
  _integer _array word[1:20];
  _boolean _procedure next(a, n); _value n; _integer n; _integer _array a;
  _begin
    _integer i, j;
    _procedure exchange(x, y); _value x, y; _integer x, y;
    _begin
      _integer t;
      t := a[x]; a[x] := a[y]; a[y] := t
    _end exchange;
    i := n - 1;
    look: _if i > 0 _then
    _begin
      _if a[i] >= a[i + 1] _then
      _begin
        i := i - 1; _goto look
      _end
    _end;
    _if i = 0 _then _goto last;
    j := n;
    down: _if a[j] <= a[i] _then
    _begin
      j := j - 1; _goto down
    _end;
    exchange(i, j);
    j := n; i := i + 1;
    turn: _if i < j _then
    _begin
      exchange(i, j); i := i + 1; j := j - 1; _goto turn
    _end;
    next := _true;
    last:
  _end next;
  _for c := inchar _while c > 32 _do
  _begin
    length := length + 1; word[length] := c
  _end;
  again: _for c := 1 _step 1 _until length _do outchar(word[c]);
  shown := shown + 1;
  outchar(_if (shown _div 6) * 6 = shown _then 10 _else 32);
  _if next(word, length) _then _goto again;
  outinteger(shown); outtext({ words}); outcr
_end
#aabbc
