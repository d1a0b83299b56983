      DO 10 I=1,2
      DO 10 J=1,3
      IF (J.EQ.2) GO TO 10
      K=K+10*I+J
   10 L=L+1
      WRITE (6,20) I,J,K,L
   20 FORMAT (4I4)
      END
