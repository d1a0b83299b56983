      ENTRYF
      END
