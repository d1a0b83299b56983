      LOGICAL ODD
      ODD(N)=MOD(N,2).EQ.1
      I=ODD()
      END
