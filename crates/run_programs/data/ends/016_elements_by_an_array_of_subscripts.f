      INTEGER P(7),A(7),B(7)
      DATA P/3,7,1,6,2,5,4/
      DO I=1,7
      A(P(I))=10*I
      END DO
      DO I=1,7
      B(I)=A(P(P(I)))
      END DO
      WRITE (6,10) A,B
   10 FORMAT (7I4)
      END
