      IMPLICIT NONE
      INTEGER J
      DO WHILE (I.LT.J)
      J=J-1
      END DO
      END
