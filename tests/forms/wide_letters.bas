10 REM 樹種 of a plot
20 PRINT "樹高",H:DATA 杉,"檜, 大",松
30 A$="杉"+1
40 PRINT "胸高直径";
