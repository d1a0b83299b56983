      DO 10 I=1,9
      IF (MOD(I,3).NE.0) GO TO 10
      K=K+I
      WRITE (6,20) I,K
   10 END DO
      WRITE (6,20) I,K
   20 FORMAT (2I4)
      END
