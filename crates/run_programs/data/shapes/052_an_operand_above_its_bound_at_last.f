      INTEGER A(9),B(2,3)
      DO 10 I=1,2
   10 B(I,3)=I
      J=3
      DO 20 I=1,9
   20 A(I)=A(I)+B(I,J)*2
      END
