      DATAI
      END
