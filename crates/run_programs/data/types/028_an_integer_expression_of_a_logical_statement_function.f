      LOGICAL ODD
      ODD(N)=MOD(N,2)
      END
