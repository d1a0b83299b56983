      I=J*-K
      END
