      DO 20 I=1,2
      DO 10 J=1,3
   10 K=K+I*J
   20 WRITE (6,30) I,J,K
   30 FORMAT (3I4)
      END
