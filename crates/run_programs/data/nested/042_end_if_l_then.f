      END
      IF(L)THEN
