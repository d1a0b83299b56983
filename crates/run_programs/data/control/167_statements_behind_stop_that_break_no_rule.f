      I=1
      STOP
      GO TO 10
   10 I=2
      END
