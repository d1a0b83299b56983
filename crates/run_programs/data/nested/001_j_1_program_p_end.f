      J=1
      PROGRAM P
      END
