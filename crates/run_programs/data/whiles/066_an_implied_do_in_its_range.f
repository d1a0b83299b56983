      INTEGER A(5)
      DATA A/1,2,3,4,5/
      N=5
      DO WHILE (N.GT.2)
      WRITE (6,10) N,(A(I),I=1,N)
      N=N-1
      END DO
      WRITE (6,10) I
   10 FORMAT (6I4)
      END
