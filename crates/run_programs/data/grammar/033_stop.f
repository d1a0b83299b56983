      I=1
      STOP
   10 CONTINUE
      END
