      CONTINU
      END
