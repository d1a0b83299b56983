   10 STOP
   10 STOP
      END
