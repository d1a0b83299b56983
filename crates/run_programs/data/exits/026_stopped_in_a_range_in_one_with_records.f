      DO 20 I=1,3
      DO 10 J=1,9
      IF (I*J.EQ.10) STOP 'TENTH'
   10 K=K+1
   20 WRITE (6,30) I,J,K
   30 FORMAT (3I3)
      END
