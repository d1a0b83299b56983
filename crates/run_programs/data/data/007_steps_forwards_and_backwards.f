      INTEGER A(7)
      DATA (A(I),I=1,7,2)/1,2,3,4/,(A(K),K=6,2,-2)/3*9/
      WRITE (6,10) A
   10 FORMAT (7I2)
      END
