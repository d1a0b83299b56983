      DO I=1,2
      IF (I.EQ.1) END DO
      END
