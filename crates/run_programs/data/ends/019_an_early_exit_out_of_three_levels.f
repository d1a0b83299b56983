      INTEGER A(5,5)
      DO I=1,5
      DO J=1,5
      DO K=1,5
      A(I,J)=A(I,J)+K
      IF (I*J*K.EQ.24) GO TO 10
      END DO
      END DO
      END DO
   10 WRITE (6,20) I,J,K
      WRITE (6,30) A
   20 FORMAT (3I3)
   30 FORMAT (5I3)
      END
