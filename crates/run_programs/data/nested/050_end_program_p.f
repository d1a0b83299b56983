      END
      PROGRAM P
