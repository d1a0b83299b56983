      WRITE(6,123456)
      END
