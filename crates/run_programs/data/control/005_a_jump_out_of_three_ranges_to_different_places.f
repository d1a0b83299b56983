      DO 60 N=1,4
      DO 30 I=1,3
      DO 20 J=1,3
      DO 10 K=1,3
      IF (I+J+K.EQ.3*N) GO TO (20,30,40,50),N
   10 L=L+1
   20 L=L+10
   30 L=L+100
      GO TO 60
   40 L=L+1000
      GO TO 60
   50 L=L+10000
   60 WRITE (6,70) N,I,J,K,L
   70 FORMAT (4I4,I7)
      END
