'begin'
  'comment' the widow's half
  'integer' pay,
'end'
