      IMPLICIT NONE
      INTEGER CELL(30),SUM(0:30),I
      DO I=1,30
      CELL(I)=MOD(I*I,13)
      END DO
      DO I=1,30
      SUM(I)=SUM(I-1)+CELL(I)
      END DO
      WRITE (6,10) SUM
   10 FORMAT (8I5)
      END
