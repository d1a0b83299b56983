      IF(L)THEN
      DO WHILE(L)
      END IF
      END DO
      END
