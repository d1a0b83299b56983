      COMMONX
      END
