'begin'
	'integer' pay;
	pay := 3.
'end'
