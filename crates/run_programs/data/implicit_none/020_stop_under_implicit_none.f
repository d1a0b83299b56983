      IMPLICIT NONE
      INTEGER SUM,I
      DO 10 I=1,9
      SUM=SUM+I
      IF (SUM.GT.20) STOP 'DONE'
   10 END DO
      END
