      DO 010 I=1,3
      IF (I.EQ.2) GO TO 00010
      K=K+I
 0010 END DO
      WRITE (6,20) I,K
   20 FORMAT (2I4)
      END
