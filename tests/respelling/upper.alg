_begin _integer I;
  _for I := 1 _step 1 _until 3 _do
  _begin
    outinteger(I); outtext({, a {nested} string})
  _end OF THE LOOP;
  outcr
_end
