      LOGICAL T
      PARAMETER (T=1)
      END
