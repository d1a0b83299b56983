      DO 10 I=1,3
   10 WRITE (6,20) (I,I=1,3)
   20 FORMAT (I3)
      END
