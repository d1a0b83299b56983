      PARAMETER (N=1,M=2)
      M=1
      N=2
      END
