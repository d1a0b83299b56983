      GO TO(8,9)J
      INTEGER M
      END
