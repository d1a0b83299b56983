      ELSE IF(L)THEN
      END
