'begin'
  'integer' pay;
  pay := 'true'
'end'
