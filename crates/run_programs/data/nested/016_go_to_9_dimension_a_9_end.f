      GO TO 9
      DIMENSION A(9)
      END
