      GO TO (10,10,20),I
   10 I=1
      END
