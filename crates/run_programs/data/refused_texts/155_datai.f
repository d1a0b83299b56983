      DATAI/
      END
