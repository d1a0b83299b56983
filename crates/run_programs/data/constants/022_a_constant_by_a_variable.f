      INTEGER M
      PARAMETER (N=M)
      M=1
      END
