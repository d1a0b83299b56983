      DO 10 I=7,3
   10 K=1
      WRITE (6,20) I,K
   20 FORMAT (2I3)
      END
