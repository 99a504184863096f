'begin'
  'comment' Knuth's test: the formals x1 to x5 are called by name, and B hands itself and them on to the next A;
  'integer' n;

  'integer' 'procedure' A(k, x1, x2, x3, x4, x5);
    'value' k; 'integer' k, x1, x2, x3, x4, x5;
    'begin'
      'integer' 'procedure' B;
        'begin' k := k - 1; B := A := A(k, B, x1, x2, x3, x4) 'end';
      'if' k <= 0 'then' A := x4 + x5 'else' B
    'end';

  ininteger(1, n);
  outinteger(1, A(n, 1, -1, -1, 1, 0))
'end'
