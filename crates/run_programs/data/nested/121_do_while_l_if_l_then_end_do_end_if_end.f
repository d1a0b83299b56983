      DO WHILE(L)
      IF(L)THEN
      END DO
      END IF
      END
