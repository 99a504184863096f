'begin'
  'integer' pay, rate;
  pay := 1200 * rate
'end'
