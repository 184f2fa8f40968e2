!'BEGIN' 'COMMENT' The same language in its other spelling: words stand in quotes and upper-case letters. The
  program turns a number into every base from 2 to 16;
  'INTEGER' N, BASE;
  'PROCEDURE' PRINT(N); 'VALUE' N; 'INTEGER' N;
  'BEGIN'
    'INTEGER' DIGIT;
    'IF' N >= BASE 'THEN' PRINT(N 'DIV' BASE);
    DIGIT := N - N 'DIV' BASE * BASE;
    outchar('IF' DIGIT < 10 'THEN' 48 + DIGIT 'ELSE' 87 + DIGIT)
  'END' PRINT;
  N := ininteger;
  'FOR' BASE := 2 'STEP' 1 'UNTIL' 16 'DO'
  'BEGIN'
    outinteger(BASE); outtext({: }); PRINT(N); outcr
  'END'
'END'
# 1963
