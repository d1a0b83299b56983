      I=MOD(5,3)
      MOD=1
      END
