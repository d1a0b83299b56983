      DO WHILE (I.LT.6)
      I=I+1
      IF (MOD(I,2).EQ.0) GO TO 10
      J=J+10
   10 J=J+1
      END DO
      WRITE (6,20) I,J
   20 FORMAT (2I4)
      END
