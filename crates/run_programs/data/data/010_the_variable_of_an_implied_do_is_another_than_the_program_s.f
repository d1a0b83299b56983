      INTEGER A(3)
      I=8
      DATA (A(I),I=1,3)/3*4/
      WRITE (6,10) A,I
   10 FORMAT (4I2)
      END
