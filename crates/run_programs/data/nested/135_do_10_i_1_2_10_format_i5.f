      DO 10 I=1,2
10    FORMAT(I5)
