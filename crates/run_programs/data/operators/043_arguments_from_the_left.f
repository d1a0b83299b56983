      I=MOD(1/K,2**31)
      END
