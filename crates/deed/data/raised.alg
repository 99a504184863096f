'begin'
  'comment' A member is paid 100 for each year of the term. When the term is out, the years served past it are added to it, two at most:
    the scheme raises its own bound inside the loop, and the years added are paid too;
  'integer' term, served, years, year, paid;

  'integer' 'procedure' least(a, b);
    'value' a, b; 'integer' a, b;
    least := 'if' a < b 'then' a 'else' b;

  ininteger(1, term);
  ininteger(1, served);
  years := term;
  paid := 0;
  'for' year := 1 'step' 1 'until' years 'do'
    'begin'
      paid := paid + 100;
      'if' year = term 'and' served > term 'then' years := years + least(served - term, 2)
    'end';
  outinteger(1, paid)
'end' of the rule
