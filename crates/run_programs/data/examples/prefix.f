C     PREFIX SUMS, AND WHAT THEY GIVE FOR A PART OF THE NUMBERS.
      INTEGER X(12),S(0:12)
      DO 10 I=1,12
   10 X(I)=I*I-5*I
      S(0)=0
      DO 20 I=1,12
   20 S(I)=S(I-1)+X(I)
      WRITE (6,30) S(12),S(9)-S(3),S(12)-S(11)
   30 FORMAT (1X,I6)
      END
