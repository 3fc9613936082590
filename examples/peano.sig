zero	0	1
s	1	1
add	2	1
mul	2	1
