      WRITE (6,10) 1
   10 FORMAT (I2)
      WRITE (6,10)
C     A COMMENT
     1 (I,
     2 6/(3-I),I=1,
     3 9)
      END
