      INTEGER A(20)
      A(4)=2147483600
      DO 10 I=1,20
   10 A(4)=A(4)+I*2
      END
