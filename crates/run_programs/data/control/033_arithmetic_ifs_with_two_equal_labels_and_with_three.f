      DO 60 I=-1,1
      IF (I) 10,10,20
   10 K=K+1
   20 IF (I) 30,40,30
   30 K=K+10
   40 IF (I) 50,60,60
   50 K=K+100
      IF (I) 55,55,55
   55 K=K+1000
   60 CONTINUE
      WRITE (6,70) K
   70 FORMAT (I5)
      END
