      IMPLICIT NONE
      INTEGER I,X,A(3),SIZE,SQUARE,Z
      LOGICAL L,MORE
      PARAMETER (SIZE=3)
      SQUARE(Z)=Z*Z
      DO I=1,SIZE
      A(I)=SQUARE(I)
      X=X+A(I)
      END DO
      L=X.GT.10
      MORE=.NOT.L
      WRITE (6,10) A,X,L,MORE
   10 FORMAT (4I4,2L2)
      END
