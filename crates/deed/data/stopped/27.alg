'begin'
  'integer' 'procedure' sum(n); 'value' n; 'integer' n;
    sum := n + sum(n - 1);
  outinteger(1, sum(10))
'end'
