      CONTINUE1
      END
