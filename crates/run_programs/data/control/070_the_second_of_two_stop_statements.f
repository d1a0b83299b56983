      GO TO 10
      STOP 1
   10 STOP 2
      END
