      PROGRAM P
      PROGRAM P
      END
