      DO 30 I=1,3
      DO J=1,3
      DO 10 K=1,3
      N=N+1
      IF (I*J*K.EQ.12) STOP 'IN THE MIDDLE'
   10 END DO
      WRITE (6,40) I,J,N
      END DO
   30 END DO
   40 FORMAT (3I4)
      END
