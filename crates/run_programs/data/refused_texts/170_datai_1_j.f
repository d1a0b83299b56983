      DATAI/1/J
      END
