      IMPLICIT INTEGER (A-Z)
      N=429496730
      DO 20 I=1,5
      K=(I+1)*N
   20 CONTINUE
      END
