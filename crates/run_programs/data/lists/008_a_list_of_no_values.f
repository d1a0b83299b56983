      WRITE (6,10) (I,I=1,0)
      WRITE (6,10) I
   10 FORMAT ('LIST',I3,' END')
      END
