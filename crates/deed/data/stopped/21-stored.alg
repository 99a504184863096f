'begin'
  'integer' pay;
  pay := 2147483647.4;
  outinteger(1, pay);
  pay := 2147483647.5
'end'
