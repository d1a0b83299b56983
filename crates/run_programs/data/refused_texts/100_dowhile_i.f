      DOWHILE(I))
      END
