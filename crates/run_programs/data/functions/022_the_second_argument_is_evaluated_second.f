      ISUM(M,N)=N+M
      I=ISUM(2**31,1/K)
      END
