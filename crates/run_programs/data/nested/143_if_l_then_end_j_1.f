      IF(L)THEN
      END
      J=1
