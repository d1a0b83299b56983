      DO 10 I=1,3
   10 I=.TRUE.
      END
