      REALX
      END
