      DATA X/.TRUE./
      END
