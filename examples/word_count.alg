_begin _comment Lines, words and bytes of the data. A for list with while reads to the end;
  _integer c, lines, words, bytes;
  _boolean inside;
  _for c := inchar _while c >= 0 _do
  _begin
    bytes := bytes + 1;
    _if c = 10 _then lines := lines + 1;
    _if c <= 32 _then inside := _false _else
    _begin
      _if _not inside _then words := words + 1;
      inside := _true
    _end
  _end;
  outinteger(lines); outtext({ lines, }); outinteger(words); outtext({ words, });
  outinteger(bytes); outtext({ bytes}); outcr
_end
#After the Revised Report
of 1963, the copy rule
is the meaning of calls.
