'begin'
  'integer' pay; 'real' rate;
  pay := rate := 1
'end'
