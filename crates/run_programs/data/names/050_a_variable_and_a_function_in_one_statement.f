      I=MOD(MOD,3)
      END
