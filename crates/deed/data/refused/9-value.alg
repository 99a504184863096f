'begin'
  'procedure' paid(sum); 'value' sum, some; 'integer' sum; ;
'end'
