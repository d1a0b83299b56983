      INTEGER K(3),A(3)
      K(1)=3
      K(2)=1
      K(3)=2
      DO 10 I=1,3
   10 A(K(I))=I
      K(K(1))=K(K(2))
      WRITE (6,20) A(1),A(2),A(3),K(3)
   20 FORMAT (4I3)
      END
