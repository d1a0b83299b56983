      INTEGER A(8),K(8)
      DATA K/3,1,4,8,5,2,7,6/
      DO 10 I=1,8
   10 A(K(I))=I
      WRITE (6,20) A
   20 FORMAT (8I3)
      END
