      INTEGER A(5),C(5,2:5)
      DO 10 I=5,1,-1
   10 A(I)=A(I)+C(1,I)
      END
