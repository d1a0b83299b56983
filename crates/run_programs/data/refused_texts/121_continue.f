      CONTINUE=
      END
