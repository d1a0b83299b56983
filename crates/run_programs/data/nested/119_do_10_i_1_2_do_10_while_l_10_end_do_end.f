      DO 10 I=1,2
      DO 10 WHILE(L)
10    END DO
      END
