      DOWHILE(I,J)
      END
