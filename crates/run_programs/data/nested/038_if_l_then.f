      IF(L)THEN
