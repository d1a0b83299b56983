      PARAMETER (N=1)
      IF (N.EQ.1) N=2
      END
