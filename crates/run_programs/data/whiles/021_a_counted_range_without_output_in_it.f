      INTEGER A(12)
      LOGICAL MOVED
      DATA A/9,12,3,7,1,11,5,8,2,10,6,4/
      MOVED=.TRUE.
      DO WHILE (MOVED)
      MOVED=.FALSE.
      N=N+1
      DO I=1,11
      IF (A(I).GT.A(I+1)) THEN
      K=A(I)
      A(I)=A(I+1)
      A(I+1)=K
      MOVED=.TRUE.
      END IF
      END DO
      END DO
      WRITE (6,10) N,A
   10 FORMAT (13I3)
      END
