      INTEGER L(40)
      DO I=1,40
      N=I
      DO WHILE (N.NE.1)
      IF (MOD(N,2).EQ.0) THEN
      N=N/2
      ELSE
      N=3*N+1
      END IF
      L(I)=L(I)+1
      END DO
      END DO
      WRITE (6,10) L
   10 FORMAT (10I5)
      END
