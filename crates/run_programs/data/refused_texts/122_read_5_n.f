      READ(5,*)N
      END
