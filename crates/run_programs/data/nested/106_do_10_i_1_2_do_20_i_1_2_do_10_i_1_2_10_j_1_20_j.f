      DO 10 I=1,2
      DO 20 I=1,2
      DO 10 I=1,2
10    J=1
20    J=1
      END
