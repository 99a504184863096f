'begin'
  outreal(1, .0123456789012345)
'end'
