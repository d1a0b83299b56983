      I=1
      IF (I) 10,20,30
   10 CONTINUE
      END
