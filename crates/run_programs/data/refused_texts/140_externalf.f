      EXTERNALF
      END
