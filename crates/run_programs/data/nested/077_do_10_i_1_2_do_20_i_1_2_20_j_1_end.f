      DO 10 I=1,2
      DO 20 I=1,2
20    J=1
      END
