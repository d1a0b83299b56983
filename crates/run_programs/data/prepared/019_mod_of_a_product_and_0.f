      IMPLICIT INTEGER (A-Z)
      DO 20 I=1,5
      K=MOD(I*2,0)
   20 CONTINUE
      END
