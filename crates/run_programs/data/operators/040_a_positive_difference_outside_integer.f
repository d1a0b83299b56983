      I=IDIM(2147483647,-1)
      END
