      ENDDO=1,2
      END
