      IF (I.EQ.0) DO J=1,2
      END DO
      END
