      CLOSE(6)
      END
