      I=J*(-K
      END
