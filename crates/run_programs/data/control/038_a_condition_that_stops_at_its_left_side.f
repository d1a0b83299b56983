      IF (J.NE.0.AND.I/J.EQ.2) K=1
      IF (J.EQ.0.OR.I/J.EQ.2) K=K+10
      WRITE (6,10) K
   10 FORMAT (I3)
      END
