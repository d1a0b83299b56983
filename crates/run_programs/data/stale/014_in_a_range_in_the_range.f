      DO 20 I=1,9
      DO 10 J=1,3
   10 K=0**(14-I*J)
   20 CONTINUE
      END
