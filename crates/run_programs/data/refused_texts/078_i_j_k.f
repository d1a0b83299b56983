      I=(J*-K)
      END
