_begin _comment A lexer: it reads the data byte by byte, tells words, numbers, signs and layout apart, and says what
  it read on which line. The class of a byte picks a label from a switch;
  _integer c, line, words, numbers, signs;
  _switch class := layout, letter, digit, sign, finish;
  _boolean _procedure between(low, high); _value low, high; _integer low, high;
    between := low <= c _and c <= high;
  _boolean _procedure is letter; is letter := between(97, 122) _or between(65, 90);
  _boolean _procedure is digit; is digit := between(48, 57);
  _integer _procedure class of;
    class of := _if c < 0 _then 5 _else _if c <= 32 _then 1 _else _if is letter _then 2 _else _if is digit _then 3 _else 4;
  _procedure take;
  _begin
    outchar(c); c := inchar
  _end take;
  _procedure tell(name); _string name;
  _begin
    outinteger(line); outtext({ }); outtext(name); outtext({ })
  _end tell;
  line := 1;
  c := inchar;
  next: _goto class[class of];
  layout: _if c = 10 _then line := line + 1;
  c := inchar; _goto next;
  letter: words := words + 1; tell({word  });
  more letters: take;
  _if is letter _or is digit _then _goto more letters;
  outcr; _goto next;
  digit: numbers := numbers + 1; tell({number});
  more digits: take;
  _if is digit _then _goto more digits;
  outcr; _goto next;
  sign: signs := signs + 1; tell({sign  });
  take;
  outcr; _goto next;
  finish: outinteger(words); outtext({ words, }); outinteger(numbers); outtext({ numbers, });
  outinteger(signs); outtext({ signs}); outcr
_end
#total := total + 12*x1;
print(total)
