      PARAMETER (N=1)
      N=.TRUE.
      END
