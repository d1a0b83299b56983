      PARAMETER (N=3)
      N(I)=2*I
      J=4
      END
