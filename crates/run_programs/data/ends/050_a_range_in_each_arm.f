      DO 20 I=1,4
      IF (I.EQ.1) THEN
      DO J=1,2
      K=K+1
      END DO
      ELSE IF (I.EQ.2) THEN
      DO 10 J=1,3
      K=K+10
   10 END DO
      ELSE
      DO J=1,4
      IF (J.EQ.I) GO TO 20
      K=K+100
      END DO
      END IF
   20 END DO
      WRITE (6,30) I,J,K
   30 FORMAT (3I5)
      END
