'begin'
  'integer' i;
  'procedure' raise(v); 'integer' v; v := v + 1;
  'procedure' each(v, last); 'integer' v, last;
    'begin'
      ininteger(1, v);
      'for' v := 1 'step' 1 'until' last 'do' raise(v)
    'end';
  each(i, 3 * 2);
  outinteger(1, i)
'end'
