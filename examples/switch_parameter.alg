_begin _comment A switch as a parameter: a table of labels is handed to a procedure, which goes where the next
  number of the data says. A number outside the table makes the go to a dummy statement, so the procedure can say so
  itself;
  _integer n, sum;
  _switch action := add, double, print, stop;
  _procedure dispatch(table, code); _value code; _integer code; _switch table;
  _begin
    _goto table[code];
    outtext({no action }); outinteger(code); outcr
  _end dispatch;
  next: n := ininteger;
  dispatch(action, n);
  _goto next;
  add: sum := sum + ininteger; _goto next;
  double: sum := 2 * sum; _goto next;
  print: outinteger(sum); outcr; _goto next;
  stop:
_end
# 1 20, 1 1, 3, 2, 3, 7, 2, 3, 4
