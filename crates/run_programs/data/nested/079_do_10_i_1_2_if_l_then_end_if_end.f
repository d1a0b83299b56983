      DO 10 I=1,2
      IF(L)THEN
      END IF
      END
