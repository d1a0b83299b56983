      ISUM(M,N)=N+M
      I=ISUM(1/K,2**31)
      END
