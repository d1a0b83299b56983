      M(MOD)=MOD(7,3)
      END
