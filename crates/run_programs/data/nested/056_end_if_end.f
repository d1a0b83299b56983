      END IF
      END
