'begin'
  outinteger(1, 2)
  outinteger(1, 3)
'end'
