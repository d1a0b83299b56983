      INTEGER A(2)
      DATA I/1/J/2/,K,L/3,4/A(2)/5/
      WRITE (6,10) I,J,K,L,A
   10 FORMAT (6I2)
      END
