   10 IF (.TRUE.) 10,10,10
      END
