      IF (X) I=2
      END
