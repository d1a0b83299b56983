      INTEGER A(9),K(9)
      DATA K(1)/1/
      DO 10 I=2,9
      A(K(I-1))=I
   10 K(I)=I
      WRITE (6,20) I,A,K
   20 FORMAT (19I3)
      END
