      INTEGER A(2)
      DATA (A(MOD),MOD=1,2)/3,4/
      WRITE (6,10) A,MOD(7,4)
   10 FORMAT (3I2)
      END
