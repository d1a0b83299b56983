      DO 10 WHILE (I.LT.9)
      I=I+1
   10 IF (MOD(I,2).EQ.0) J=J+I
      WRITE (6,20) I,J
   20 FORMAT (2I4)
      END
