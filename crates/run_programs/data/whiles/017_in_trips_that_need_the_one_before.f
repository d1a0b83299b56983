      INTEGER A(30)
      A(1)=1
      DO I=2,30
      A(I)=A(I-1)+MOD(I,4)
      DO WHILE (MOD(A(I),5).NE.0)
      A(I)=A(I)+1
      END DO
      A(I)=A(I)+1
      END DO
      WRITE (6,10) A
   10 FORMAT (10I5)
      END
