      WRITE (6,10) I,(I,I=1,2),I,(-I,I=I,I)
   10 FORMAT (5I3)
      END
