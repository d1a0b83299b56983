      PROGRAM PRIMES
      INTEGER P(3,4)
C     THE FIRST TWELVE PRIMES, COLUMN BY COLUMN
      DATA P/ 2, 3, 5,
C     THE SECOND COLUMN
     1        7,11,13,
     2       17,19,23,
C     THE LAST
     3       29,31,37 /
      DO 10 I=1,3
   10 WRITE (6,20) P(I,1),P(I,2),P(I,3),P(I,4)
   20 FORMAT (4I3)
      END
