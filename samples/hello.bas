10 print "{clr}Hello, disk!"
20 for i=1 to 3
30 print "{red}*{wht}*{blu}*{down}";
40 next i
50 REM WHAT STANDS BETWEEN BRACES IS A KEY; A LISTING SHOWS ITS CODE
60 data "any time", 1985
70 read a$, y: print a$; y
