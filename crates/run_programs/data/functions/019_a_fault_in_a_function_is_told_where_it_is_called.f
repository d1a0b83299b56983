      INV(N)=6/N
      I=2
      J=INV(I-2)
      END
