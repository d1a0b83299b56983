      DO 10 I=1,2
10    DO WHILE(L)
      END DO
      END
