      M(K)=K
      I(M)=M(1,2)
      END
