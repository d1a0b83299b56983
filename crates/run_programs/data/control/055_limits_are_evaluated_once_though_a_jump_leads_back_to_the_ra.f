      N=3
      M=1
      DO 20 I=1,N,M
      N=9
      M=5
      J=0
   10 J=J+1
      IF (J.LT.I) GO TO 10
   20 WRITE (6,30) I,J,N
   30 FORMAT (3I3)
      END
