C TURNS 2000
      INTEGER A(50)
      DO I=1,50
      A(I)=I
      DO WHILE (A(I).NE.21)
      A(I)=A(I)+2
      A(I)=MOD(A(I),100)
      END DO
      IF (MOD(I,7).EQ.0) I2=I2+1
      END DO
      END
