'begin'
  'integer' pay;
  'if' pay 'then' pay := 0
'end'
