      IMPLICIT LOGICAL (P)
      INTEGER A(2,3)
      PARAMETER (N=3)
      DATA ((A(I,J),I=1,2),J=1,N)/1,2*7,4,2*0/,P/.TRUE./
      WRITE (6,10) A(2,1),A(1,2),A(2,2),P.AND.A(1,1).EQ.1
   10 FORMAT (3I3,L2)
      END
