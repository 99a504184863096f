'begin'
  'integer' pay;
  pay := 'if' pay = 0 'then' 1 'else' 'false'
'end'
