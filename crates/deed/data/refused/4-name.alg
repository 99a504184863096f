'begin'
  'integer' the pension of the member and of the widow;
'end'
