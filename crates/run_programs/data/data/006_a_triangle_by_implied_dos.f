      INTEGER A(3,3)
      DATA ((A(I,J),I=1,J),J=1,3)/1,2,3,4,5,6/
      WRITE (6,10) A
   10 FORMAT (3I2)
      END
