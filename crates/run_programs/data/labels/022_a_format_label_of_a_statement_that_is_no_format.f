   10 I=3
      WRITE (6,10) I
      END
