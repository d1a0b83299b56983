      ENDWHILE
      END
