      GO TO 10
      I=2*-3
   10 I=1
      END
