'begin'
  'comment' Each year of service earns an eightieth of that year's pay, and the member paid in a twentieth of it. The pay rises each year.
    The year and the term are called by name: sum sets the year, and works the term out afresh for it;
  'integer' pay, rise, years, year;

  'integer' 'procedure' sum(i, low, high, term);
    'value' low, high; 'integer' i, low, high, term;
    'begin'
      'integer' s;
      s := 0;
      'for' i := low 'step' 1 'until' high 'do' s := s + term;
      sum := s
    'end';

  ininteger(1, pay);
  ininteger(1, rise);
  ininteger(1, years);
  outinteger(1, sum(year, 1, years, (pay + rise * (year - 1)) % 80));
  outinteger(1, sum(year, 1, years, (pay + rise * (year - 1)) % 20))
'end' of the rule
