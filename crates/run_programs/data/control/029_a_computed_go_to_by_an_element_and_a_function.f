      INTEGER A(3)
      DATA A/3,1,2/
      NEXT(N)=A(A(N))
      DO 40 I=1,3
      GO TO (10,20,30),NEXT(I)
   10 K=10*K+1
      GO TO 40
   20 K=10*K+2
      GO TO 40
   30 K=10*K+3
   40 CONTINUE
      WRITE (6,50) K
   50 FORMAT (I4)
      END
