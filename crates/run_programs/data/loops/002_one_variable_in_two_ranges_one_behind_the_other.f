      DO 10 I=1,3
   10 J=J+I
      DO 20 I=1,3
   20 J=J+10*I
      WRITE (6,30) I,J
   30 FORMAT (2I4)
      END
