      ELSE
      J=1
      INTEGER M
