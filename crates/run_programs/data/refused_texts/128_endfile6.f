      ENDFILE6
      END
