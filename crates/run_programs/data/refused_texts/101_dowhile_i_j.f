      DOWHILE(I)J
      END
