'begin'
  'comment' A member has an eightieth of the pay for each year of service, forty at most;
  'integer' pay, years, rate;

  ininteger(1, pay);
  ininteger(1, years);
  rate := 'if' years > 40 'then' 40 'else' year;
  outinteger(1, pay * rate % 80)
'end' of the rule
