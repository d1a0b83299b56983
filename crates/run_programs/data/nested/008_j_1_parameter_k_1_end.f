      J=1
      PARAMETER(K=1)
      END
