      PARAMETER (N=M+1,M=1)
      END
