      IF (.FALSE.) I=.TRUE.
      END
