      INTEGER A(2,3),B(4)
      A(1,2)=3
      B(A(1,2))=A(1,2)+A(2,1)
      WRITE (6,10) A,B
   10 FORMAT (6I3,3X,4I3)
      END
