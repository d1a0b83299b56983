      IF(L)THEN
      END
