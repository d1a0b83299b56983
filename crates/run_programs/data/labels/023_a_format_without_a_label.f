      FORMAT (I3)
      END
