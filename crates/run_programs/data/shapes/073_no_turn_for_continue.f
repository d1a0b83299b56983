C TURNS 26
      INTEGER A(40)
      DO 10 I=1,40
      A(I)=I
   10 CONTINUE
      END
