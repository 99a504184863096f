'begin'
  'real' pay;
  pay := 'true'
'end'
