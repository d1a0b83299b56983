      IF(J)7,8,9
      INTEGER M
      END
