'begin'
  'real' pay;
  pay := 10;
  'for' pay := pay * pay 'while' 'true' 'do' outreal(1, pay)
'end'
