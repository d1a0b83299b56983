      DO I=1,9
      WRITE (6,10) I
      K=0
      DO J=1,2
      K=K+J/(6-I)
      END DO
      END DO
   10 FORMAT (I3)
      END
