      LOGICAL L,MOD
      L=MOD(5,3).EQ.2
      END
