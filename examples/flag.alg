_begin _comment E. W. Dijkstra's Dutch national flag: pebbles of three colours are put in order by one walk and
  swaps alone;
  _integer n, red, white, blue, c;
  _integer _array pebble[1:80];
  _procedure swap(i, j); _value i, j; _integer i, j;
  _begin
    _integer t;
    t := pebble[i]; pebble[i] := pebble[j]; pebble[j] := t
  _end swap;
  _for c := inchar _while c >= 65 _do
  _begin
    n := n + 1; pebble[n] := c
  _end;
  red := white := 1; blue := n;
  walk: _if white <= blue _then
  _begin
    c := pebble[white];
    _if c = 82 _then
    _begin
      swap(red, white); red := red + 1; white := white + 1
    _end
    _else _if c = 87 _then white := white + 1 _else
    _begin
      swap(white, blue); blue := blue - 1
    _end;
    _goto walk
  _end;
  _for c := 1 _step 1 _until n _do outchar(pebble[c]);
  outcr
_end
#WBRRBWWRBBWRWRB
