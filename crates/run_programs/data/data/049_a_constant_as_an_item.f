      PARAMETER (N=1)
      DATA N/1/
      END
