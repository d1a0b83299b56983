      INTEGER M
      PROGRAM P
      END
