C TURNS 200
      I=0
   10 I=I+1
      DO 20 J=1,3
      DO 20 K=1,3
      IF (K.EQ.I) GO TO 20
      IF (J.EQ.I) GO TO 30
   20 L=L+1
   30 GO TO (10,30,40),I
   40 IF (I-3) 10,50,50
   50 END
