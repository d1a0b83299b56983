      I=5
      WRITE (6,10) -I*2+1,I-1-2,+7
   10 FORMAT (3I4)
      END
