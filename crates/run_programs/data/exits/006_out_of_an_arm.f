      INTEGER A(12)
      DO 10 I=1,12
      IF (I.LT.5) THEN
      A(I)=1
      ELSE IF (I.LT.6) THEN
      A(I)=2
      GO TO 20
      ELSE
      A(I)=3
      END IF
   10 A(I)=A(I)+4
   20 WRITE (6,30) I,A
   30 FORMAT (13I3)
      END
