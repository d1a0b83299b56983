      IF(L)THEN
      PROGRAM P
      END IF
      END
