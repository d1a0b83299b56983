      BLOCKDATA
      END
