'begin'
  'procedure' paid; ;
  paid := 1
'end'
