      DO 10 I=1,3
   10 GO TO 20
   20 END
