      X=1
      INTEG=J(1)
      STOP
      END
