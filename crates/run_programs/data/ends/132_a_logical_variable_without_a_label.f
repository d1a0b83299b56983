      LOGICAL L
      DO L=1,2
      END DO
      END
