      IMPLICIT INTEGER (A-Z)
      N=-2147483638
      DO 20 I=1,5
      K=I*2-N
   20 CONTINUE
      END
