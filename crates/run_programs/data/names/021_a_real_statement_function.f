      F(I)=2*I
      J=F(1)
      END
