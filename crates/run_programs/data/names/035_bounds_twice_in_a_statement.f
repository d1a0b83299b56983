      DIMENSION I(3),J(2),I(3)
      END
