'begin'
  'comment' A pension is raised each year by the rate at which prices rose, by 2.5 per cent at most, and is never lowered. The rates come in tenths of
    a per cent. Each year is written with the pension of that year, and behind the last one all that was paid, to the nearest whole number;
  'integer' years, year, tenths;
  'real' pension, paid;

  'real' 'procedure' rate(tenths);
    'value' tenths; 'integer' tenths;
    rate := 'if' tenths < 0 'then' 0 'else' 'if' tenths > 25 'then' 0.025 'else' tenths / 1000;

  ininteger(1, pension);
  ininteger(1, years);
  paid := 0;
  'for' year := 1 'step' 1 'until' years 'do'
    'begin'
      ininteger(1, tenths);
      pension := pension * (1 + rate(tenths));
      paid := paid + pension;
      outinteger(1, year);
      outreal(1, pension)
    'end';
  outinteger(1, paid)
'end' of the rule
