'begin'
  'integer' years;
  years := 0;
  outinteger(1, 1200 % years)
'end'
