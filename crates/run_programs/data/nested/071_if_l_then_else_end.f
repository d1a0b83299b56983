      IF(L)THEN
      ELSE
      END
