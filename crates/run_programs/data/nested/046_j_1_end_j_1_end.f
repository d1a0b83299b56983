      J=1
      END
      J=1
      END
