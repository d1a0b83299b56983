      IF(L)THEN
      END IF
      PARAMETER(K=1)
      END
