      PARAMETER (N=IABS(-1))
      END
