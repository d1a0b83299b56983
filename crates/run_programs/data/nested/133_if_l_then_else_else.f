      IF(L)THEN
      ELSE
      ELSE
