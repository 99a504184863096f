'begin'
  'integer' pay;
  pay := 7.5 % 2
'end'
