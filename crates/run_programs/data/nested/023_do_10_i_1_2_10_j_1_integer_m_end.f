      DO 10 I=1,2
10    J=1
      INTEGER M
      END
