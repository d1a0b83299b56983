      I=(J-K)**(-2)
      END
