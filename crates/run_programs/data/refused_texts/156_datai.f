      DATAI//
      END
