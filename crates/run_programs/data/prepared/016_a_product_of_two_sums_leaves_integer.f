      IMPLICIT INTEGER (A-Z)
      N=429496729
      DO 20 I=1,5
      K=(I+1)*(N+1)
   20 CONTINUE
      END
