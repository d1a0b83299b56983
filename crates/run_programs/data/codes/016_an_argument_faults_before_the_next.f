      N(I,J)=I+J
      K=N(0**L,1/L)
      END
