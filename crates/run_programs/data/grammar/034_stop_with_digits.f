      I=1
      STOP 77
   10 CONTINUE
      END
