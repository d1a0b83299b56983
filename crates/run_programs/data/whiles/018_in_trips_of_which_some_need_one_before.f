      INTEGER A(50)
      DO 10 I=1,50
      A(I)=I
      DO 20 WHILE (A(I).GT.20)
      A(I)=A(I)-A(MOD(I,7)+1)-1
   20 CONTINUE
   10 CONTINUE
      WRITE (6,30) A
   30 FORMAT (10I5)
      END
