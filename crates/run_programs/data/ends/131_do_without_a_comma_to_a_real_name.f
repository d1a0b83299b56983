      DO I=1
      END
