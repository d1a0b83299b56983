      DATAI/--1/
      END
