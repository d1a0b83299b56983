      IMPLICIT NONE
      INTEGER F,X,Y
      LOGICAL BOTH,P,Q
      F(X,Y)=X*10+Y
      BOTH(P,Q)=P.AND.Q
      WRITE (6,10) F(1,2),BOTH(F(1,2).EQ.12,.TRUE.)
   10 FORMAT (I3,L2)
      END
