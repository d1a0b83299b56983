      END
      J=1
