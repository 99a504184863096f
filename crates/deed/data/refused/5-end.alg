'begin'
  outinteger(1, 2);
