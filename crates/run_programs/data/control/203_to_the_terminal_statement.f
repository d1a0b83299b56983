      DO 10 I=1,5
      IF (MOD(I,2).EQ.0) GO TO 10
      J=J+I
   10 CONTINUE
      WRITE (6,20) I,J
   20 FORMAT (2I3)
      END
