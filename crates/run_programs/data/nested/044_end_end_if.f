      END
      END IF
