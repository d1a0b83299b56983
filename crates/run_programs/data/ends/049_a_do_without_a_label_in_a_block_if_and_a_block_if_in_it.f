      DO I=1,3
      IF (I.NE.2) THEN
      DO J=1,3
      IF (J.EQ.I) THEN
      DO K=1,2
      N=N+K
      END DO
      ELSE
      N=N+100
      END IF
      END DO
      END IF
      WRITE (6,10) I,N
      END DO
   10 FORMAT (2I5)
      END
