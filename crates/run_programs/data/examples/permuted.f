C     A COPY THROUGH AN ARRAY OF SUBSCRIPTS, AND BACK.
      INTEGER P(5),X(5),Y(5),Z(5)
      P(1)=3
      P(2)=5
      P(3)=1
      P(4)=2
      P(5)=4
      DO 10 I=1,5
      X(I)=100+I
   10 Y(P(I))=X(I)
      DO 20 I=1,5
      Z(I)=Y(P(I))
   20 WRITE (6,30) I,Y(I),Z(I)-X(I)
   30 FORMAT (I3,I5,I3)
      END
