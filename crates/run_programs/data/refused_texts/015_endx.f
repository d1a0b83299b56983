      ENDX
      END
