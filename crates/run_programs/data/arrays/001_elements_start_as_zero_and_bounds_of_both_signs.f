      INTEGER A(-1:1)
      A(-1)=7
      WRITE (6,20) A(-1),A(0),A(1)
   20 FORMAT (3I3)
      END
