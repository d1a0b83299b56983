      I=MOD(5,0)
      END
