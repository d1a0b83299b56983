      SAVE
      END
