      DATAI/1.5/
      END
