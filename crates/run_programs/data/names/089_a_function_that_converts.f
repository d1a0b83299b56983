      I=INT(3)
      END
