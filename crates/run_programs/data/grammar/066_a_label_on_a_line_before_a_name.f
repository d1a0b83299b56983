      GO TO 10
      X=1
      END
