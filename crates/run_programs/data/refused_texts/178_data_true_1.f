      DATA.TRUE./1/
      END
