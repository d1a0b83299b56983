      DO 20 I=1,3
      DO 10 J=1,9
   10 K=1/(10-I*J)
   20 WRITE (6,30) I,J,K
   30 FORMAT (3I3)
      END
