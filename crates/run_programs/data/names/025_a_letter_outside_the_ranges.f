      IMPLICIT LOGICAL (A-H)
      LOGICAL O
      P=.TRUE.
      END
