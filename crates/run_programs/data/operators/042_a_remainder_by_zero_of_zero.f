      I=MOD(0,K)
      END
