      INTEGER E(4,4)
      DO 10 I=1,5
   10 E(1,I)=I
      END
