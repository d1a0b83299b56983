      INTEGER A(30)
      DO I=1,30
      J=0
      DO WHILE (J.LT.I)
      J=J+1
      IF (J*J.EQ.I+100) GO TO 20
      END DO
      A(I)=J
      END DO
   20 WRITE (6,30) I,J,A
   30 FORMAT (8I4)
      END
