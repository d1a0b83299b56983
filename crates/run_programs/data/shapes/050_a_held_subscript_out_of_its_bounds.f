      INTEGER A(4,4),B(9)
      J=5
      DO 10 I=1,9
   10 B(I)=I
      DO 20 I=1,4
   20 B(I)=B(I)+A(J,I)
      END
