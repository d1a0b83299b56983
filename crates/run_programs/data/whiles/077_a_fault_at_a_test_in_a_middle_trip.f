      INTEGER A(40)
      WRITE (6,10) 1
      DO I=1,40
      N=3
      DO WHILE (6/(N+I-20).LT.6)
      N=N-1
      IF (N.EQ.0) GO TO 20
      END DO
   20 A(I)=N
      END DO
      WRITE (6,10) A
   10 FORMAT (I4)
      END
