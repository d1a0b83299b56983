      I=MOD(5)
      END
