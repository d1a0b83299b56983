      WRITE (6,10) (I,(I*J,J=1,2),I=1,2),I,J
   10 FORMAT (8I3)
      END
