      DO 10 I=1,10,3
   10 J=J+1
      WRITE (6,20) I,J
   20 FORMAT (2I4)
      END
