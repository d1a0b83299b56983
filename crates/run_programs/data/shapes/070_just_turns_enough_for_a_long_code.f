C TURNS 41
      INTEGER A(40)
      DO 10 I=1,40
   10 A(I)=A(I)+I*3-I+2*I-A(I)/2
      END
