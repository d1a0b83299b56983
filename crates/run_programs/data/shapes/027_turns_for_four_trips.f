C TURNS 5
      INTEGER A(9)
      DO 10 I=1,9
   10 A(I)=I
      END
