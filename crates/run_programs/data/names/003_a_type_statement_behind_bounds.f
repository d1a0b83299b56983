      DIMENSION X(3)
      INTEGER X
      X(2)=7
      WRITE (6,10) X
   10 FORMAT (3I3)
      END
