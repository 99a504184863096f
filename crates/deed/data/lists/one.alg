'begin' 'integer' i; i := 1 'end'
