      INTEGER A(3:9)
      DO 10 I=9,1,-2
   10 A(I)=I
      END
