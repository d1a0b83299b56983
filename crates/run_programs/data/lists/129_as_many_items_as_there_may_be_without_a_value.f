      WRITE (6,10) ((J,J=1,0),I=1,65535)
   10 FORMAT ('X')
      END
