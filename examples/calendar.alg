_begin _comment A calendar of the months that the data name by year and month, until a 0. Switches of strings don't
  exist, so a switch of labels prints the name;
  _integer year, month, day, first, days;
  _integer _procedure mod(a, b); _value a, b; _integer a, b;
    mod := a - a _div b * b;
  _boolean _procedure leap(y); _value y; _integer y;
    leap := mod(y, 4) = 0 _and mod(y, 100) <> 0 _or mod(y, 400) = 0;
  _integer _procedure weekday(y, m, d); _value y, m, d; _integer y, m, d;
  _begin _comment 0 is Monday: Zeller's rule, in which January and February belong to the year before;
    _if m < 3 _then
    _begin
      m := m + 12; y := y - 1
    _end;
    weekday := mod(d + 13 * (m + 1) _div 5 + y + y _div 4 - y _div 100 + y _div 400 + 5, 7)
  _end weekday;
  _integer _procedure length(y, m); _value y, m; _integer y, m;
    length := _if m = 2 _then (_if leap(y) _then 29 _else 28)
      _else _if m = 4 _or m = 6 _or m = 9 _or m = 11 _then 30 _else 31;
  _procedure print name(m); _value m; _integer m;
  _begin
    _switch name := l1, l2, l3, l4, l5, l6, l7, l8, l9, l10, l11, l12;
    _goto name[m];
    l1: outtext({January}); _goto out;
    l2: outtext({February}); _goto out;
    l3: outtext({March}); _goto out;
    l4: outtext({April}); _goto out;
    l5: outtext({May}); _goto out;
    l6: outtext({June}); _goto out;
    l7: outtext({July}); _goto out;
    l8: outtext({August}); _goto out;
    l9: outtext({September}); _goto out;
    l10: outtext({October}); _goto out;
    l11: outtext({November}); _goto out;
    l12: outtext({December});
    out:
  _end print name;
  _for year := ininteger _while year > 0 _do
  _begin
    month := ininteger;
    outtext({      }); print name(month); outchar(32); outinteger(year); outcr;
    outtext({ Mo Tu We Th Fr Sa Su}); outcr;
    first := weekday(year, month, 1); days := length(year, month);
    _for day := 1 - first _step 1 _until days _do
    _begin
      outtext({ });
      _if day < 10 _then outchar(32);
      _if day < 1 _then outchar(32) _else outinteger(day);
      _if mod(day + first, 7) = 0 _or day = days _then outcr
    _end
  _end
_end
# 1963 1, 2000 2, 0
