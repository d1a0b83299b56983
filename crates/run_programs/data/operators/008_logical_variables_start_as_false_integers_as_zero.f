      LOGICAL L,M(3)
      INTEGER A(2)
      WRITE (6,10) L,M,I,A
   10 FORMAT (4L2,3I2)
      END
