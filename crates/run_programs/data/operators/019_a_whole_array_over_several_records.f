      INTEGER A(-2:2)
      DO 10 I=-2,2
   10 A(I)=I*I
      WRITE (6,20) A,I
   20 FORMAT ('A',2(I3,:,','))
      END
