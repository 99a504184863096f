'begin'
  'integer' pay; 'Boolean' married;
  pay := pay * married
'end'
