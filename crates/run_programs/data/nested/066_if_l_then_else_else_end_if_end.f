      IF(L)THEN
      ELSE
      ELSE
      END IF
      END
