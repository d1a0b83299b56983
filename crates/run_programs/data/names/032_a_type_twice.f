      INTEGER I,J,I
      I=1
      END
