      INTEGER X,Y,SIN
      LOGICAL Z
      I=1
      WRITE (6,10) I
   10 FORMAT (I2)
      END
