'begin'
  'comment' How reals look: with a point and a digit on either side of it, plainly from 0.000001 on and below 10 to the 15th, and any other with a power of ten;
  'integer' i;
  'real' x;
  outreal(1, 0); outreal(1, -0.0); outreal(1, -3); outreal(1, 0.05); outreal(1, 1234.56);
  outreal(1, 1 / 3); outreal(1, 0.1 + 0.2); outreal(1, 2 / 3 * 1000);
  outreal(1, 0.000001); outreal(1, 0.00000099); outreal(1, 99999999999999.9); outreal(1, 99999999999999.0 * 10 + 10);
  x := 1;
  'for' i := 1 'step' 1 'until' 300 'do' x := x * 10;
  outreal(1, x); outreal(1, -1.5 * x);
  x := 1;
  'for' i := 1 'step' 1 'until' 1074 'do' x := x / 2;
  outreal(1, x); outreal(1, x / 2); outreal(1, -x / 2)
'end'
