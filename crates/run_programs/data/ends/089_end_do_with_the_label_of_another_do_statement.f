      DO 10 I=1,2
      DO 20 J=1,2
   10 END DO
   20 END DO
      END
