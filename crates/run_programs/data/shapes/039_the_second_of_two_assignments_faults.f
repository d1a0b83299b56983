      INTEGER A(20),B(20)
      DO 10 I=1,20
      A(I)=I*3
   10 B(I+4)=A(I)-1
      END
