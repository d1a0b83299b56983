      INTEGER A(12),B(12)
      DO 10 I=1,12
   10 A(7)=A(7)+B(I+3)
      END
