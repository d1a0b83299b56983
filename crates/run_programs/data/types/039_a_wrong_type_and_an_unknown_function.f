      I=J(1).AND..TRUE.
      END
