      INTEGER A(20),B(20)
      LOGICAL IS
      DO I=1,20
      A(I)=MOD(I*37,64)
      END DO
      IS=.TRUE.
      DO WHILE (IS)
      DO I=1,20
      B(I)=(A(MOD(I,20)+1)+A(I))/2
      END DO
      IS=.FALSE.
      DO I=1,20
      IF (A(I).NE.B(I)) IS=.TRUE.
      A(I)=B(I)
      END DO
      N=N+1
      IF (N.EQ.12) IS=.FALSE.
      END DO
      WRITE (6,10) N,A
   10 FORMAT (7I4)
      END
