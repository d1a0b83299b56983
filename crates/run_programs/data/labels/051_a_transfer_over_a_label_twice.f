   10 I=1
   10 GO TO 20
      END
