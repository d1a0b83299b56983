      LOGICAL MOD
      I=MOD(5,3)
      END
