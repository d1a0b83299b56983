      DATA M(1,2)/1/
      M(K)=K
      END
