_begin _comment Two coroutines, after an exercise of D. Grune: one turns aa into b, the other bb into c, and each
  asks the one before it for its next byte. An own variable holds where each goes on, and a switch goes there;
  _integer c;
  _integer _procedure first;
  _begin _comment the data with each aa as b;
    _own _integer resume, ahead;
    _switch place := fresh, held;
    _goto place[resume + 1];
    fresh: ahead := inchar;
    _if ahead <> 97 _then
    _begin
      first := ahead; _goto out
    _end;
    ahead := inchar;
    _if ahead = 97 _then
    _begin
      first := 98; _goto out
    _end;
    first := 97; resume := 1; _goto out;
    held: first := ahead; resume := 0;
    out:
  _end first;
  _integer _procedure second;
  _begin _comment what first gives with each bb as c;
    _own _integer resume, ahead;
    _switch place := fresh, held;
    _goto place[resume + 1];
    fresh: ahead := first;
    _if ahead <> 98 _then
    _begin
      second := ahead; _goto out
    _end;
    ahead := first;
    _if ahead = 98 _then
    _begin
      second := 99; _goto out
    _end;
    second := 98; resume := 1; _goto out;
    held: second := ahead; resume := 0;
    out:
  _end second;
  _for c := second _while c >= 0 _do outchar(c)
_end
#aa aaaa baa aab aba abba
aaabaabbb
