      INTEGER A(12)
      DO I=1,3
      DO J=1,12
      A(J)=A(J)+MOD(I*J,5)
      END DO
      WRITE (6,10) I,A
      END DO
   10 FORMAT (13I3)
      END
