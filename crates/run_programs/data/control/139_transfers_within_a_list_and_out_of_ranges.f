      I=0
   10 I=I+1
      DO 20 J=1,3
      DO 20 K=1,3
      IF (K.EQ.I) GO TO 20
      IF (J.EQ.I) GO TO 30
   20 L=L+1
   30 GO TO (10,10,40),I
   40 IF (I-3) 10,50,50
   50 WRITE (6,60) I,J,K,L
   60 FORMAT (4I3)
      END
