      IF(L)CONTINUE
      INTEGER M
      END
