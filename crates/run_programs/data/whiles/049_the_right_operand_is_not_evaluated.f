      INTEGER A(4)
      DATA A/5,6,7,8/
      I=1
      DO WHILE (I.LE.4.AND.A(I).LT.9)
      I=I+1
      END DO
      WRITE (6,10) I
      DO WHILE (I.EQ.0.OR.12/I.LT.99)
      I=I-1
      IF (I.EQ.-1) GO TO 20
      END DO
   20 WRITE (6,10) I
   10 FORMAT (I4)
      END
