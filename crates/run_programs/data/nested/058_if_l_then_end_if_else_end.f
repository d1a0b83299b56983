      IF(L)THEN
      END IF
      ELSE
      END
