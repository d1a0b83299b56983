      DO 10 I=1,2
      DO 10 J=1,2
   10 END DO
      END
