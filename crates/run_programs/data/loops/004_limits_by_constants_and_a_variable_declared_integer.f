      INTEGER X,A(5)
      PARAMETER (N=5,M=-2)
      DO 10 X=N,1,M
   10 A(X)=X
      WRITE (6,20) A,X
   20 FORMAT (6I3)
      END
