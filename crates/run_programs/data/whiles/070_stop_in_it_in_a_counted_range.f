      INTEGER A(20)
      DO I=1,20
      DO WHILE (A(I).LT.I)
      A(I)=A(I)+3
      IF (A(I).EQ.15) STOP 15
      END DO
      END DO
      END
