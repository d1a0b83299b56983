      IFAC(N)=N*IFAC(N-1)
      END
