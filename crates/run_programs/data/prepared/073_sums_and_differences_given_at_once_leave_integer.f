      IMPLICIT INTEGER (A-Z)
      K=-2147483640
      DO 20 I=1,9
      J=K-I
      N=N+1
   20 CONTINUE
      END
