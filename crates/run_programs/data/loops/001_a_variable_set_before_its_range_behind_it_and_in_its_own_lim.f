      I=2
      DO 10 I=I,I+3
   10 K=K+I
      I=I+1
      DO 20 J=1,2
      I=J
   20 K=K+I
      WRITE (6,30) I,J,K
   30 FORMAT (3I4)
      END
