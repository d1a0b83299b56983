      WRITE (6,10) (I,I=3,1,-1),I
      WRITE (6,10) (I,I=1,6,2),I
      WRITE (6,10) (I,I=5,1),I
      WRITE (6,10) (I,I=5,1,-9),I
   10 FORMAT (4I3)
      END
