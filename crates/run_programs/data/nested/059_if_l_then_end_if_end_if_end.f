      IF(L)THEN
      END IF
      END IF
      END
