'begin'
  'integer' pay, years, pay;
'end'
