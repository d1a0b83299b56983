      IMPLICIT INTEGER (A-C), LOGICAL (C-E)
      I=1
      END
