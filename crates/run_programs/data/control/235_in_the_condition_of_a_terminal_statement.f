      DO 10 I=1,3
   10 IF (1/(I-2).EQ.5) J=1
      END
