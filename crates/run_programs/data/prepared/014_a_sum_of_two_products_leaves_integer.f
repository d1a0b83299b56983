      IMPLICIT INTEGER (A-Z)
      N=1073741819
      DO 20 I=1,5
      K=I*2+N*2
   20 CONTINUE
      END
