      DO 10 I=1,2
      DO 10 J=1,3
   10 K=K+I*J
      WRITE (6,20) I,J,K
   20 FORMAT (3I4)
      END
