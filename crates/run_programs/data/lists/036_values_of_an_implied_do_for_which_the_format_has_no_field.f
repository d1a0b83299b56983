      WRITE (6,10) (I,I=1,0)
      WRITE (6,10) (I,I=1,2)
   10 FORMAT ('FIRST',2('AGAIN'))
      END
