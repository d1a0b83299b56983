      INTEGER A(2),B(2,2)
      DATA (A(I),(B(I,J),J=1,2),I=1,2)/1,2,3,4,5,6/
      WRITE (6,10) A,B
   10 FORMAT (6I2)
      END
