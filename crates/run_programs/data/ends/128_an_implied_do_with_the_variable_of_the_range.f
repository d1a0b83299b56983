      DO I=1,2
      WRITE (6,10) (I,I=1,2)
      END DO
   10 FORMAT (2I2)
      END
