'begin'
  outinteger(1, 2147483648)
'end'
