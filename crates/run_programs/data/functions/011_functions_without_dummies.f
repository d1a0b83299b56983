      INEXT()=I+1
      I=6
      I=INEXT()*INEXT()
      WRITE (6,10) I,INEXT()
   10 FORMAT (2I3)
      END
