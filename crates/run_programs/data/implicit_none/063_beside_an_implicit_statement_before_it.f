      IMPLICIT LOGICAL (L)
      IMPLICIT NONE
      LOGICAL L
      L=.TRUE.
      END
