      BACKSPACE6
      END
