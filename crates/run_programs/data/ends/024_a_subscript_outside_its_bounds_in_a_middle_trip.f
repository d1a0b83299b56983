      INTEGER A(5),B(9)
      DATA B/3,1,5,2,4,0,1,2,3/
      DO 10 I=1,9
      A(B(I))=I
   10 END DO
      WRITE (6,20) A
   20 FORMAT (5I3)
      END
