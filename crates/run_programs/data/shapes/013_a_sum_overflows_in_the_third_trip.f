      INTEGER A(5),B(5)
      B(3)=2147483647
      A(3)=1
      WRITE (6,9) A
      DO 10 I=1,5
   10 A(I)=A(I)+B(I)
      WRITE (6,9) A
    9 FORMAT (5I3)
      END
