      IF(L)THEN
      ELSE
      ELSE IF(L)THEN
      END IF
      END
