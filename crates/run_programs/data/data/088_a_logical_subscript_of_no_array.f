      DATA J(.TRUE.)/1/
      END
