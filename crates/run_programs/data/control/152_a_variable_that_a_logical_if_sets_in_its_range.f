      DO 10 I=1,3
   10 IF (I.EQ.2) I=3
      END
