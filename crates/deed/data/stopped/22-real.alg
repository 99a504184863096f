'begin'
  'real' years;
  years := 0;
  outreal(1, 1200 / years)
'end'
