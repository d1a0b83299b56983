      DO 10 I=1,3
      WRITE (6,20) I
   10 J=2147483646+I
   20 FORMAT (I1)
      END
