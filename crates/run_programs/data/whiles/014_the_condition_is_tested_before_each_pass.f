      INTEGER A(6)
      DATA A/3,1,4,1,5,9/
      N=1
      DO WHILE (A(N).NE.5)
      A(N)=A(N)+10
      N=N+1
      END DO
      WRITE (6,10) N,A
   10 FORMAT (7I4)
      END
