      I=1
      Y=2
      X=3
      END
