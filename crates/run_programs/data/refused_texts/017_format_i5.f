      FORMAT(I5))
      END
