'begin'
  'procedure' paid(sum); 'value' sum; ;
'end'
