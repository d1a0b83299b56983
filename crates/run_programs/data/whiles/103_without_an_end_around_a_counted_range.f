C TURNS 1234
      DO WHILE (K.GE.0)
      DO I=1,30
      K=K+I
      J=MOD(K,17)
      END DO
      END DO
      END
