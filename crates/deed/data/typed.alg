'begin'
  'Boolean' widowed; 'integer' pay; 'real' share;
  'real' 'procedure' half(sum); 'real' sum;
    'begin' half := sum / 2; sum := 1.5 'end';
  widowed := 'true'; pay := 1201;
  share := half(pay);
  outreal(1, 'if' widowed 'then' share 'else' pay);
  outinteger(1, pay)
'end'
