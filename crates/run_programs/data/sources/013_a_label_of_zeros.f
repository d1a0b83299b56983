  00  I=1
      END
