nil	0	1
a	0	1
b	0	1
cons	2	1
append	2	1
rev	1	1
