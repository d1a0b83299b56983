      IMPLICIT INTEGER (A-Z)
      DO 20 I=1,5
      N=5-I
      K=(I+1)/N
   20 CONTINUE
      END
