'begin'
  outinteger(2, 1200)
'end'
