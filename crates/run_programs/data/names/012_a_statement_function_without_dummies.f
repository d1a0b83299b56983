      NINE()=9
      I=NINE()*NINE()
      WRITE (6,10) I,NINE()
   10 FORMAT (2I4)
      END
