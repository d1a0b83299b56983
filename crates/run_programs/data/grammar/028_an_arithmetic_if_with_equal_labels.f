      I=1
      IF (I) 10,10,10
   10 CONTINUE
      END
