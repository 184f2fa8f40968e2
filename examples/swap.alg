_begin _comment Why no procedure can swap any two variables by name. swap(i, a[i]) changes i first, and then assigns
  to another element than the one whose value was fetched, since a name formal stands for its actual each time that
  it is used. swap(a[i], i) happens to work. An actual with a side effect is evaluated as often as its formal is
  used;
  _integer i, k;
  _integer _array a[1:3];
  _procedure swap(x, y); _integer x, y;
  _begin
    _integer t;
    t := x; x := y; y := t
  _end swap;
  _procedure prepare;
  _begin
    i := 1; a[1] := 2; a[2] := 9; a[3] := 7
  _end prepare;
  _procedure show(title); _string title;
  _begin
    outtext(title); outtext({: i=}); outinteger(i);
    _for k := 1 _step 1 _until 3 _do
    _begin
      outtext({ a}); outinteger(k); outtext({=}); outinteger(a[k])
    _end;
    outcr
  _end show;
  _integer _procedure next;
  _begin
    i := i + 1; next := i
  _end next;
  prepare; show({at first            });
  swap(i, a[i]); show({swap(i, a[i])       });
  prepare; swap(a[i], i); show({swap(a[i], i)       });
  prepare; i := 0; swap(a[next], a[3]); show({swap(a[next], a[3]) })
_end
