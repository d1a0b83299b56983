      DATAI/-N/
      END
