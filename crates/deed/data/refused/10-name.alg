'begin'
  'procedure' paid; ;
  outinteger(1, 1 + paid)
'end'
