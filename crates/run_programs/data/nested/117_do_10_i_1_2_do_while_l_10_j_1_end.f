      DO 10 I=1,2
      DO WHILE(L)
10    J=1
      END
