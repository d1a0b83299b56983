      PARAMETER (N=-1)
      DATA I/N*5/
      END
