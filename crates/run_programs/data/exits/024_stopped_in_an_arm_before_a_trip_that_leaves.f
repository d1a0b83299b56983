      INTEGER A(12)
      DO 10 I=1,12
      IF (I.EQ.5) THEN
      STOP 'FIFTH'
      ELSE IF (I.EQ.6) THEN
      GO TO 20
      END IF
   10 A(I)=1/(7-I)
   20 WRITE (6,30) I
   30 FORMAT (I3)
      END
