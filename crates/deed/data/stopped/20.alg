'begin'
  'integer' year;
  'for' year := 1 'step' 0 'until' 40 'do'
'end'
