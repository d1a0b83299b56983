      INTEGER E(4,4)
      DO 10 I=1,5
   10 E(I,1)=I
      END
