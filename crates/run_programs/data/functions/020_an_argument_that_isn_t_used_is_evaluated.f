      IONE(M,N)=N
      K=0
      I=IONE(1/K,5)
      END
