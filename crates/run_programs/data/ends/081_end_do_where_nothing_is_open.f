      END DO
      END
