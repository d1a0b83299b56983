      FORMAT
      END
