      DO 20 I=1,3
      DO 20 J=1,4
      IF (J.EQ.I) GO TO 20
      K=K+10*I+J
   20 M=M+1
      WRITE (6,30) I,J,K,M
   30 FORMAT (4I5)
      END
