      I(MAX)=MAX(.TRUE.,.FALSE.)
      END
