C TURNS 17
      INTEGER A(30)
      DO 10 I=1,30
   10 A(2)=A(2)+A(I)+1
      END
