      WRITE (6,20) 1
      DO 10 I=1,1/K
   10 J=I
   20 FORMAT (I3)
      END
