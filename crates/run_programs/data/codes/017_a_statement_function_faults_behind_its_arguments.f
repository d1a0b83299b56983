      N(I,J)=I/J
      K=1+N(M,L)*2
      END
