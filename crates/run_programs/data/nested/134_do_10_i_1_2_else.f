      DO 10 I=1,2
      ELSE
