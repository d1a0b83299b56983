   10 CONTINUE
      IF (I) 10,10,20
      END
