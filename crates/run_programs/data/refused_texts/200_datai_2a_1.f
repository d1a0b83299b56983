      DATAI/2A*1/
      END
