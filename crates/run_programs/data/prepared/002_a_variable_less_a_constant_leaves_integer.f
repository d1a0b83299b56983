      IMPLICIT INTEGER (A-Z)
      N=-2147483640
      DO 20 I=1,5
      N=N-1
      K=N-4
   20 CONTINUE
      END
