      IF (I/J.EQ.2) K=1
      END
