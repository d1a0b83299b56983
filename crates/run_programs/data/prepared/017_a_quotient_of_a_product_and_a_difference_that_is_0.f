      IMPLICIT INTEGER (A-Z)
      N=5
      DO 20 I=1,5
      K=(I*2)/(N-I)
   20 CONTINUE
      END
