      DOWHILE()
      END
