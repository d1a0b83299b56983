      IMPLICIT INTEGER (A-Z)
      N=-2147483643
      DO 20 I=1,5
      N=N-1
      K=N/(-1)
   20 CONTINUE
      END
