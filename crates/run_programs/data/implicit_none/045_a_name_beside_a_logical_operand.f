      IMPLICIT NONE
      LOGICAL L
      L=L.AND.M
      END
