      J=1
      INTEGER M
      END
