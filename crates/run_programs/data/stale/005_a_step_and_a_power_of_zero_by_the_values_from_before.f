      DO 20 I=1,9
      IF (I.EQ.1) L=2
      DO 10 J=1,3,L
   10 K=K+L**(L-2)
   20 CONTINUE
      WRITE (6,30) I,J,K,L
   30 FORMAT (4I3)
      END
