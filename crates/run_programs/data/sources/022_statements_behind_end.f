      END
      I=1
      END
