      DATAI/A(1)/
      END
