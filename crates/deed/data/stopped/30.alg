'begin'
  'procedure' paid(sum); 'integer' sum; sum := 0;
  'procedure' both(sum); 'integer' sum; paid(sum);
  both(1200 + 60)
'end'
