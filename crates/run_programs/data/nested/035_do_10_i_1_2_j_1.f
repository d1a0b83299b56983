      DO 10 I=1,2
      J=1
