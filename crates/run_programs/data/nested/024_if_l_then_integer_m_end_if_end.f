      IF(L)THEN
      INTEGER M
      END IF
      END
