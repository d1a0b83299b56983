      INTEGER A(9)
      I=2147483647
      WRITE (6,10) I
   10 FORMAT (I11)
      IF (I.GT.0) A(I-2147483646)=5
      WRITE (6,10) A(I-2147483646)
      J=A(I+1)
      END
