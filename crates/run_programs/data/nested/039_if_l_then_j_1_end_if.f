      IF(L)THEN
      J=1
      END IF
