'begin'
  outinteger(1, 'true')
'end'
