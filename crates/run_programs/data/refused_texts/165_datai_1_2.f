      DATAI/1,,2/
      END
