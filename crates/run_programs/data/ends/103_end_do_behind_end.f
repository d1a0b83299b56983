      END
      END DO
