      PARAMETER (M=1)
      N(M(1))=2
      END
