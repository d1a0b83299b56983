      I_J=1
      END
