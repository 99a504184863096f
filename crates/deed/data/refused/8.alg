'begin'
  'integer' pay;
  pay := rate
'end'
