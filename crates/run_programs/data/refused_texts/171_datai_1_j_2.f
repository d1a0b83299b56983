      DATAI/1/,,J/2/
      END
