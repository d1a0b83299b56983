      F()=1
      INTEGER M
      END
