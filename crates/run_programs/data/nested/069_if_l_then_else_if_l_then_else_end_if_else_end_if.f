      IF(L)THEN
      ELSE
      IF(L)THEN
      ELSE
      END IF
      ELSE
      END IF
      END
