'begin'
  'integer' pay;
  pay := 'is' 3
'end'
