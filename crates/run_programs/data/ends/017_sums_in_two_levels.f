      INTEGER A(6,5),ROW(6),COL(5)
      DO J=1,5
      DO I=1,6
      A(I,J)=MOD(I*J*J,11)
      END DO
      END DO
      DO I=1,6
      DO J=1,5
      ROW(I)=ROW(I)+A(I,J)
      COL(J)=COL(J)+A(I,J)
      END DO
      END DO
      WRITE (6,10) ROW,COL
   10 FORMAT (6I4/5I4)
      END
