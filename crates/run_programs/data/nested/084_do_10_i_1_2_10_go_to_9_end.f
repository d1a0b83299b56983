      DO 10 I=1,2
10    GO TO 9
      END
