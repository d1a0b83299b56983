      DO 10 I=1,2
      DO 10 I=1,2
      DO 20 I=1,2
      J=1
      DO 10 I=1,2
      END
