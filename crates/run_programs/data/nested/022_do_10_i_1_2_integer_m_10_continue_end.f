      DO 10 I=1,2
      INTEGER M
10    CONTINUE
      END
