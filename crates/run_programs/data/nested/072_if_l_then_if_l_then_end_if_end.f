      IF(L)THEN
      IF(L)THEN
      END IF
      END
