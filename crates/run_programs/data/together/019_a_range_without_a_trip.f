      DO 10 I=5,1
   10 J=1
      WRITE (6,20) I,J
   20 FORMAT (2I3)
      END
