'begin'
  outreal(1, 1234567.890123456)
'end'
