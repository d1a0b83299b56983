      INTEGER I
      LOGICAL I
      END
