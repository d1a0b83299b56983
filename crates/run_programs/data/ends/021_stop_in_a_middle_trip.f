      INTEGER A(9)
      DO I=1,9
      A(I)=2*I
      IF (I.EQ.7) STOP 7
      END DO
      WRITE (6,10) A
   10 FORMAT (9I3)
      END
