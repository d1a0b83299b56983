      INTEGER A(5)
      I=1
      DO 10 WHILE (A(I).EQ.0)
      WRITE (6,20) I
   10 I=I+2
   20 FORMAT (I4)
      END
