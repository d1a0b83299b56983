      INTEGER A(3,0:3)
      DATA A/5,4,3,2,1,0,9,8,7,6,5,0/
      I=1
      J=0
      DO WHILE (A(I,J).NE.0)
      A(I,J)=A(I,J)-1
      I=MOD(I,3)+1
      IF (I.EQ.1) J=MOD(J+1,4)
      K=K+1
      END DO
      WRITE (6,10) I,J,K,A
   10 FORMAT (15I3)
      END
