      INTEGER A(10)
      IDX(I)=I*I+1
      DO 10 I=IDX(0),IDX(1)+IDX(1)-1,IDX(0)
   10 A(IDX(I))=MAX0(I,IDX(1),-I)
      WRITE (6,20) A
   20 FORMAT (10I2)
      END
