      DO 20 I=1,3
      DO 10 J=1,9
      IF (J.EQ.2*I) GO TO 20
   10 K=K+I*J
   20 WRITE (6,30) I,J,K
   30 FORMAT (3I3)
      END
