      WRITE(6,10),I
      END
