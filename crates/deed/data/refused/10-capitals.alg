'BEGIN' 'INTEGER' A;
  A := 1;
  'IF' A 'THEN' A := 2
'END'
