C TURNS 50
      INTEGER K(100)
      DO 10 I=1,100
   10 K(I)=I
      END
