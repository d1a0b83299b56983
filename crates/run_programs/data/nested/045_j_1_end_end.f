      J=1
      END
      END
