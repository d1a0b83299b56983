      IF (I.EQ.0) IF (J.EQ.0) K=1
      END
