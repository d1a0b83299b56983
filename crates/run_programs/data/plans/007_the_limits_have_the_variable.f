      I=3
      DO 10 I=I,I+4
   10 K=K+I
      WRITE (6,20) I,K
   20 FORMAT (2I3)
      END
