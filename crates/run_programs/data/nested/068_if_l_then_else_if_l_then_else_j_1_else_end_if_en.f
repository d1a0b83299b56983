      IF(L)THEN
      ELSE IF(L)THEN
      ELSE
      J=1
      ELSE
      END IF
      END
