      DOWHILE
      END
