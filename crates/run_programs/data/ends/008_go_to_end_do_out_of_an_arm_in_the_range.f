      DO 10 I=1,6
      IF (MOD(I,2).EQ.0) THEN
      IF (I.EQ.4) GO TO 10
      K=K+I
      ELSE
      K=K+100
      GO TO 10
      END IF
      K=K+1000
   10 END DO
      WRITE (6,20) I,K
   20 FORMAT (2I6)
      END
