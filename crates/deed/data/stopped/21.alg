'begin'
  'integer' pay;
  pay := maxint;
  outinteger(1, pay);
  outinteger(1, pay + 1)
'end'
