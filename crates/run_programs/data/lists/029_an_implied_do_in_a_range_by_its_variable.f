      DO 10 I=1,3
   10 WRITE (6,20) (J,J=1,I),(I*J,J=I,1,-1)
   20 FORMAT (6I3)
      END
