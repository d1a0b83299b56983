      PARAMETER (N=.TRUE.)
      END
