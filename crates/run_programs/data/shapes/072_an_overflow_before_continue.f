      INTEGER A(40)
      A(1)=1
      DO 10 I=2,40
      A(I)=A(I-1)*2
   10 CONTINUE
      END
