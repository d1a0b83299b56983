      END
      PARAMETER(K=1)
