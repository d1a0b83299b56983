      I=
      END
