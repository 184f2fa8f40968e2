_begin _comment quoted words with strings of all kinds, and identifiers that look like words;
  _integer begin, end; _boolean _array A[1:3];
  _for begin := 1 _step 1 _until 3 _do A[begin] := begin <> 2 _or _false;
  outtext({one }); outtext({two }); outtext({three});
  end := 7 ^ 2 _div 2;
  _if end >= 24_then outinteger(end)_else_goto out;
  _begin outcr _end of it;
  out:
_end
