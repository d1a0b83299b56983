      DO I=1,.TRUE.
      END DO
      END
