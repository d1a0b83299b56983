      I=2147483647
      IF (I+1) 10,10,10
   10 CONTINUE
      END
