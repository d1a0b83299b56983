      DATA I/.TRUE./
      END
