      I=1
      END IF
      END
