      J=1
      INTEGER M
      END
      J=1
