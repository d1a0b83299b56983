      DO I=1,2
      WRITE (6,10) I
   10 END DO
      END
