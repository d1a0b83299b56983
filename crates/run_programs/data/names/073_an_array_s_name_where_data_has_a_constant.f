      INTEGER A(3)
      DATA I/A/
      END
