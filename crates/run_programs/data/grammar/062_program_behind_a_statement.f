      I=1
      PROGRAM P
      END
