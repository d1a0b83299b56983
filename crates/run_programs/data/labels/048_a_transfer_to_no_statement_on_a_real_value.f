      IF (X) 10,20,10
   10 I=1
      END
