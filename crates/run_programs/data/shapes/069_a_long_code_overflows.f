      INTEGER A(40)
      A(1)=1
      A(2)=1
      DO 10 I=3,40
   10 A(I)=A(I-1)*2+A(I-2)+A(I-1)*3-1+A(1)
      END
