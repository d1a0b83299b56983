      DO 10 I=1,2
      END
10    CONTINUE
