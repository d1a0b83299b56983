      DOWHILE(I
      END
