      DO 10 I=1,2
10    DO 10 I=1,2
10    J=1
      END
