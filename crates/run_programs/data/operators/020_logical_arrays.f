      LOGICAL SIEVE(30)
      DO 10 I=2,30
   10 SIEVE(I)=.TRUE.
      DO 20 I=2,5
      DO 20 J=2*I,30,I
   20 SIEVE(J)=.FALSE.
      WRITE (6,30) SIEVE
   30 FORMAT (10L2)
      END
